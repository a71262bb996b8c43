// Calls nothing of the archive.
fn main() {
    println!("{}", yoksimert::MAXIMUM);
}
