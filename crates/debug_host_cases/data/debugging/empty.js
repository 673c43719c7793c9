function f() {
}
f();
