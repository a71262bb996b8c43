use yoksimert::{DerivedBitVecSignal, Refusal, SignalWriter, transform_signal};

fn main() -> Result<(), Refusal> {
    assert_eq!(yoksimert::raw::version(), yoksimert::VERSION);
    let mut tariff = SignalWriter::new(4)?;
    tariff.add_change(0, "zzzz")?;
    tariff.add_change(7, "0001")?;
    let refusal = tariff.add_change(6, "0010").expect_err("6 is below 7");
    let tariff = tariff.finish();
    let (since, levels) = tariff.value_at(9)?.expect("a change at or before 9");
    println!("{since}: {levels}");
    println!("refused: {refusal}");

    let low = DerivedBitVecSignal::new_slice(0, 1, 0)?;
    for change in transform_signal(&low, &[&tariff])?.iter_changes() {
        let (index, levels) = change?;
        println!("{index}: {levels}");
    }
    Ok(())
}
