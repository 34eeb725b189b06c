/* For a compiler without headers of its own, such as the kit's. */
typedef __SIZE_TYPE__ size_t;
#define NULL ((void *)0)
