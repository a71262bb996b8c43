//! The programs' arguments.

/// The numbers that stand behind the given names, and the arguments that have no name.
pub fn numbers(
    arguments: &[String],
    names: &[&str],
) -> Result<(Vec<Option<u64>>, Vec<String>), String> {
    let mut numbers = vec![None; names.len()];
    let mut rest = Vec::new();
    let mut arguments = arguments.iter();
    while let Some(argument) = arguments.next() {
        match names.iter().position(|name| name == argument) {
            Some(at) => {
                let value = arguments
                    .next()
                    .ok_or_else(|| format!("{argument} needs a number"))?;
                let number = value
                    .parse()
                    .map_err(|_| format!("not a number: {value}"))?;
                numbers[at] = Some(number);
            }
            None => rest.push(argument.clone()),
        }
    }
    Ok((numbers, rest))
}
