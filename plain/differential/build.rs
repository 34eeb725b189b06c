fn main() {
    archives::link(&["em73862", "em73p982"]);
}
