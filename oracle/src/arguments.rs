//! What a command line gives: numbers, as `--name number`, or sections.

/// Sets each named number that the command line gives; any other word is an error that shows the
/// names.
pub fn numbers(known: &mut [(&str, &mut u64)]) -> Result<(), String> {
    let mut given = std::env::args().skip(1);
    while let Some(name) = given.next() {
        let value = given.next().and_then(|value| value.parse().ok());
        let place = known.iter().position(|(known, _)| *known == name);
        let (Some(place), Some(value)) = (place, value) else {
            let names: Vec<&str> = known.iter().map(|(name, _)| *name).collect();
            return Err(format!("usage: [NAME NUMBER ..] with {}", names.join(", ")));
        };
        *known[place].1 = value;
    }
    Ok(())
}

/// The sections that the command line names, all of them where it names none, and whether it has `--markdown`; any other word is
/// an error that shows the sections.
pub fn sections(known: &[&str]) -> Result<(Vec<String>, bool), String> {
    let given = std::env::args().skip(1);
    let (options, names): (Vec<String>, Vec<String>) = given.partition(|it| it.starts_with('-'));
    let is_known = |name: &&String| known.contains(&name.as_str());
    let unknown = names.iter().find(|name| !is_known(name));
    let unknown = unknown.or(options.iter().find(|option| *option != "--markdown"));
    if let Some(word) = unknown {
        let usage = known.join("] [");
        return Err(format!("{word}? usage: [--markdown] [{usage}]"));
    }
    let all = known.iter().map(|name| name.to_string()).collect();
    let names = if names.is_empty() { all } else { names };
    Ok((names, !options.is_empty()))
}
