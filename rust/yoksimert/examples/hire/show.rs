//! What is printed, line by line.

use crate::capture::{self, Capture, Lead};
use crate::draw;
use std::error::Error;
use yoksimert::{DerivedBitVecSignal, Refusal, Signal, States, transform_signal};

pub fn hire(text: &str) -> Result<Vec<String>, Box<dyn Error>> {
    let capture = capture::read(text)?;
    let [wheel, flag, lamp, tariff] = &capture.leads[..] else {
        return Err("four signals are expected".into());
    };
    let mut lines = offered(&capture);
    lines.push(
        "\nThe records, their bytes in hexadecimal; a set is the number of values a level may have"
            .into(),
    );
    for lead in &capture.leads {
        lines.extend(record(&lead.name, &lead.signal)?);
    }
    let start = first(&flag.signal, "1")?.ok_or("the flag never goes down")?;
    lines.push(format!(
        "\nLooked up at index {start}, where the flag goes down"
    ));
    for lead in &capture.leads {
        lines.push(moment(lead, start)?);
    }
    lines.extend(decimal(tariff, start)?);
    lines.push(
        "\nDerived: flag, lamp and tariff side by side, and the two lower wires of the tariff"
            .into(),
    );
    lines.push(
        "(a step is kept where the levels change, or the set of the levels they come from)".into(),
    );
    let (meter, low) = (meter(flag, lamp, tariff)?, low(tariff)?);
    lines.extend(record("meter", &meter)?);
    lines.extend(record("low", &low)?);
    lines.push("\nThe levels, a column for each time index\n".into());
    let leads = [wheel, flag, lamp, tariff].map(|lead| (&lead.name[..], &lead.signal));
    let signals = leads.into_iter().chain([("meter", &meter), ("low", &low)]);
    lines.extend(waves(signals)?);
    Ok(lines)
}

/// What became of the lines of the capture.
fn offered(capture: &Capture) -> Vec<String> {
    let leads = capture.leads.iter();
    let kept: usize = leads.map(|lead| lead.signal.time_indices().len()).sum();
    let (offered, refused) = (capture.offered, capture.refused.len());
    let repeats = offered - kept - refused;
    let mut lines = vec![format!(
        "{offered} changes: {kept} kept, {repeats} dropped as a repeat, {refused} refused"
    )];
    for refused in &capture.refused {
        let (line, text, refusal) = (refused.line, &refused.text, refused.refusal);
        lines.push(format!("  line {line}, `{text}`: {refusal}"));
    }
    lines
}

/// A record's largest set, and of each entry its time index, levels, own set and bytes.
fn record(name: &str, signal: &Signal) -> Result<[String; 5], Refusal> {
    let (changes, bytes) = (signal.time_indices().len(), signal.bytes().len());
    let largest = signal.max_states().map_or(0, values);
    let entries = signal.iter_changes().collect::<Result<Vec<_>, _>>()?;
    let sets = entries.iter().filter_map(|(_, value)| value.states());
    let packed = signal.bytes().chunks((bytes / changes.max(1)).max(1));
    let hexadecimal = packed.map(|entry| entry.iter().map(|byte| format!("{byte:02x}")).collect());
    Ok([
        format!("  {name:<8}{changes} changes in {bytes} bytes, largest set {largest}"),
        listed("index", entries.iter().map(|(index, _)| index.to_string())),
        listed("levels", entries.iter().map(|(_, value)| value.to_string())),
        listed("set", sets.map(|set| values(set).to_string())),
        listed("bytes", hexadecimal),
    ])
}

fn listed(head: &str, words: impl Iterator<Item = String>) -> String {
    let words: Vec<String> = words.collect();
    format!("          {head:<8}{}", words.join(" "))
}

fn values(states: States) -> u32 {
    match states {
        States::Two => 2,
        States::Four => 4,
        States::Nine => 9,
    }
}

/// The first time index at which the signal shows these levels.
fn first(signal: &Signal, levels: &str) -> Result<Option<u32>, Refusal> {
    for change in signal.iter_changes() {
        let (index, value) = change?;
        if value.to_string() == levels {
            return Ok(Some(index));
        }
    }
    Ok(None)
}

/// What a lead shows at a time index.
fn moment(lead: &Lead, index: u32) -> Result<String, Refusal> {
    let Lead { name, signal, .. } = lead;
    let Some((since, value)) = signal.value_at(index)? else {
        return Ok(format!("  {name:<8}nothing yet"));
    };
    Ok(match draw::next_change(signal, index)? {
        Some(next) => format!("  {name:<8}{value:<6}since {since}, until {next}"),
        None => format!("  {name:<8}{value:<6}since {since}"),
    })
}

/// What a bus of decimal digits says at a time index, or why that is no number.
fn decimal(lead: &Lead, index: u32) -> Result<Option<String>, Refusal> {
    let Lead { name, signal, .. } = lead;
    let held = signal.value_at(index)?;
    let Some(levels) = held.and_then(|(_, value)| value.as_bit_vec()) else {
        return Ok(None);
    };
    Ok(Some(match levels.decimal() {
        Ok(number) => format!("  the {name} in packed decimal: {number}"),
        Err(refusal) => format!("  the {name} is no decimal number: {refusal}"),
    }))
}

/// Flag, lamp and tariff side by side.
fn meter(flag: &Lead, lamp: &Lead, tariff: &Lead) -> Result<Signal, Refusal> {
    const FLAG: u32 = 1;
    const LAMP: u32 = 2;
    const TARIFF: u32 = 3;
    let mut meter = DerivedBitVecSignal::new_identity(FLAG, flag.signal.encoding())?;
    meter.concat_right_full(LAMP, lamp.wires)?;
    meter.concat_right_full(TARIFF, tariff.wires)?;
    transform_signal(&meter, &[&flag.signal, &lamp.signal, &tariff.signal])
}

/// The two lower wires of the tariff.
fn low(tariff: &Lead) -> Result<Signal, Refusal> {
    let low = DerivedBitVecSignal::new_slice(0, 1, 0)?;
    transform_signal(&low, &[&tariff.signal])
}

fn waves<'a>(signals: impl Iterator<Item = (&'a str, &'a Signal)>) -> Result<Vec<String>, Refusal> {
    const COLUMNS: u32 = 70;
    let ruler = draw::ruler(COLUMNS as usize);
    let mut lines = ruler.map(|line| format!("          {line}")).to_vec();
    for (name, signal) in signals {
        lines.push(format!("  {name:<8}{}", draw::row(signal, COLUMNS)?));
    }
    lines.push(format!("\n  {}", draw::LEGEND));
    let trimmed = lines.iter().map(|line| line.trim_end().to_string());
    Ok(trimmed.collect())
}
