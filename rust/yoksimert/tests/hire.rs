//! The example's output: all of it is stored, and the README shows its drawing.

#[path = "../examples/hire/capture.rs"]
mod capture;
#[path = "../examples/hire/draw.rs"]
mod draw;
#[path = "../examples/hire/show.rs"]
mod show;

const README: &str = include_str!("../../../README.md");
const CAPTURE: &str = include_str!("../examples/hire/capture.txt");
const OUTPUT: &str = include_str!("../examples/hire/output.txt");

#[test]
fn the_output_is_as_stored() {
    let lines = show::hire(CAPTURE).expect("the capture is read");
    let shown = lines.join("\n") + "\n";
    assert!(shown == OUTPUT, "{shown}");
}

/// Of several changes at one index the last one holds, looked up or drawn.
#[test]
fn the_last_change_of_an_index_holds() {
    let text = "\
        wires wheel 1\nwires flag 1\nwires lamp 1\nwires tariff 2\n\
        0 wheel 0\n0 flag 0\n0 lamp 0\n0 tariff 00\n0 flag 1\n0 lamp 1\n0 lamp z\n";
    let lines = show::hire(text).expect("the capture is read");
    let at = lines
        .iter()
        .position(|line| line.contains("Looked up at index 0"));
    let at = at.expect("the flag goes down at index 0");
    assert_eq!(lines[at + 2], "  flag    1     since 0");
    assert_eq!(lines[at + 3], "  lamp    z     since 0");
    let told = "  the tariff is no decimal number: the width is above 64";
    assert!(lines[at + 5].starts_with(told), "{}", lines[at + 5]);
    let drawn = format!("  lamp    {}", "╌".repeat(70));
    assert!(lines.contains(&drawn), "{lines:#?}");
}

#[test]
fn the_readme_shows_the_drawing() {
    let lines = show::hire(CAPTURE).expect("the capture is read");
    let drawing = lines[lines.len() - 9..].join("\n");
    assert!(README.contains(&drawing), "{drawing}");
    assert!(drawing.trim_start().starts_with("0         10"));
}

#[test]
fn wrong_lines_are_told() {
    for (text, told) in [
        ("wires a", "line 1: three words are expected: wires a"),
        ("wires a b", "line 1: not a number of wires: wires a b"),
        ("\n7 a 1", "line 2: not a signal: 7 a 1"),
        ("wires a 1\n-7 a 1", "line 2: not a time index: -7 a 1"),
    ] {
        assert_eq!(capture::read(text).err().as_deref(), Some(told));
    }
    let wide = capture::read("wires a 4097").err();
    assert!(wide.is_some_and(|told| told.contains("refusal 1")));
}
