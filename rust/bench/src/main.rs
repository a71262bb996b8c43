//! `bench [layout | add | records | scroll | derive]`: times of the proved functions beside wellen's, both at release, the best of several rounds.

#[cfg(all(wellen, inner))]
mod by_hand;
#[cfg(all(wellen, inner))]
mod derive;
#[cfg(all(wellen, inner))]
mod inner;
#[cfg(all(wellen, inner))]
mod layout;
#[cfg(all(wellen, inner))]
mod numbers;
#[cfg(all(wellen, inner))]
mod records;
#[cfg(all(wellen, inner))]
mod scrolling;
#[cfg(all(wellen, inner))]
mod strings;
#[cfg(all(wellen, inner))]
mod timing;

#[cfg(all(wellen, inner))]
fn main() {
    let arguments: Vec<String> = std::env::args().skip(1).collect();
    let part = match arguments.iter().map(String::as_str).collect::<Vec<_>>()[..] {
        [] => None,
        [part @ ("layout" | "add" | "records" | "scroll" | "derive")] => Some(part),
        _ => {
            eprintln!("usage: bench [layout | add | records | scroll | derive]");
            std::process::exit(2);
        }
    };
    println!("{}", timing::machine());
    println!("strings: letters of the set without order, one of them none of a smaller set's");
    let wanted = |name| part.is_none_or(|part| part == name);
    if wanted("layout") {
        layout::pack();
        layout::least();
        layout::repeats();
        layout::widen();
    }
    if wanted("add") {
        records::add();
    }
    if wanted("records") {
        records::raise();
        records::read();
        numbers::numbers();
        records::compare();
        records::look_up();
        records::equal_indices();
    }
    if wanted("scroll") {
        scrolling::look_up();
        scrolling::texts();
    }
    if wanted("derive") {
        derive::derive();
    }
}

#[cfg(not(all(wellen, inner)))]
fn main() {
    eprintln!(
        "bench: build the archive first (./staticlib bench), and set WELLEN_SRC to the folder that holds wellen's src/fst.rs"
    );
    std::process::exit(2);
}
