/* For a compiler without headers of its own, such as the kit's: what the programs of examples/ use. */
unsigned long strtoul(const char *text, char **end, int base);
_Noreturn void exit(int status);
