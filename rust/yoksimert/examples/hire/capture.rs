//! A capture, read line by line into one record for each signal.

use yoksimert::{Added, Refusal, Signal, SignalWriter};

/// A signal's name and its record.
pub struct Lead {
    pub name: String,
    pub wires: u32,
    pub signal: Signal,
}

/// A line that the recorder refused.
pub struct Refused {
    pub line: usize,
    pub text: String,
    pub refusal: Refusal,
}

pub struct Capture {
    pub leads: Vec<Lead>,
    /// How many changes the file offers.
    pub offered: usize,
    pub refused: Vec<Refused>,
}

/// Reads `wires NAME COUNT` and `INDEX NAME LEVELS`; `#` begins a comment.
pub fn read(text: &str) -> Result<Capture, String> {
    let mut reader = Reader::default();
    for (text, line) in text.lines().zip(1..) {
        let wrong = |what: String| format!("line {line}: {what}: {text}");
        let words: Vec<&str> = text.split_whitespace().collect();
        match words[..] {
            [] => {}
            [first, ..] if first.starts_with('#') => {}
            ["wires", name, wires] => reader.wires(name, wires).map_err(wrong)?,
            [index, name, levels] => {
                let answer = reader.change(index, name, levels).map_err(wrong)?;
                let text = text.to_string();
                reader.refused.extend(answer.err().map(|refusal| Refused {
                    line,
                    text,
                    refusal,
                }));
            }
            _ => return Err(wrong("three words are expected".into())),
        }
    }
    Ok(reader.finish())
}

/// The signals so far.
#[derive(Default)]
struct Reader {
    writers: Vec<(String, u32, SignalWriter)>,
    offered: usize,
    refused: Vec<Refused>,
}

impl Reader {
    fn wires(&mut self, name: &str, wires: &str) -> Result<(), String> {
        let wires = wires.parse().map_err(|_| "not a number of wires")?;
        let writer = SignalWriter::new(wires).map_err(|refusal| refusal.to_string())?;
        self.writers.push((name.to_string(), wires, writer));
        Ok(())
    }

    /// The recorder's answer, if the line is one of a signal.
    fn change(
        &mut self,
        index: &str,
        name: &str,
        levels: &str,
    ) -> Result<Result<Added, Refusal>, String> {
        let index = index.parse().map_err(|_| "not a time index")?;
        let lead = self.writers.iter_mut().find(|lead| lead.0 == name);
        let (_, _, writer) = lead.ok_or("not a signal")?;
        self.offered += 1;
        Ok(writer.add_change(index, levels))
    }

    fn finish(self) -> Capture {
        let leads = self.writers.into_iter().map(|(name, wires, writer)| Lead {
            name,
            wires,
            signal: writer.finish(),
        });
        Capture {
            leads: leads.collect(),
            offered: self.offered,
            refused: self.refused,
        }
    }
}
