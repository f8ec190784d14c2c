//! Prints the layout of every struct.

fn main() {
    for line in prunepocket_sys::layout() {
        println!("{line}");
    }
}
