fn main() {
    archives::link(&["hex_calls"]);
}
