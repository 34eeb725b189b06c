fn main() {
    archives::link(&["sound_calls"]);
}
