//! What the contracts have to look like. An exported call `brazulintN_x` of interface N says `x·answer` of its parameters, and `x·p` for each
//! lent p, which `face/specs/Calls.antt` defines; it says nothing else. No public function has a `requires`, and none is without an `ensures`.

use crate::project::{Project, Text};
use crate::source::Function;

/// The public functions without an `ensures`, with the reason.
pub const WITHOUT: &[(&str, &str)] = &[];

/// The call that is linked as `brazulint4_send`: `send`.
fn call_of(name: &str) -> Option<&str> {
    let (interface, call) = name.strip_prefix("brazulint")?.split_once('_')?;
    interface.parse::<u32>().ok().map(|_| call)
}

/// The name and the type of each parameter.
fn parameters(signature: &str) -> Vec<(&str, &str)> {
    let inside = signature.split_once('(').and_then(|(_, rest)| rest.rsplit_once("->")).map_or("", |(list, _)| list);
    let list = inside.trim().trim_end_matches(')');
    list.split(',').filter_map(|one| one.split_once(':')).map(|(name, kind)| (name.trim(), kind.trim())).collect()
}

/// The clauses that the function that exports a call has to have.
fn expected(call: &str, function: &Function) -> Vec<String> {
    let all = parameters(&function.signature);
    let argument = |(name, kind): &(&str, &str)| match (kind.starts_with("&mut"), kind.starts_with('&')) {
        (true, _) => format!(" {name}.old"),
        (false, true) => format!(" {name}.now"),
        (false, false) => format!(" {name}"),
    };
    let arguments = all.iter().map(argument).collect::<String>();
    let answer = format!("{{ result ≡ {call}·answer{arguments} }}");
    let lent = all.iter().filter(|(_, kind)| kind.starts_with("&mut"));
    let left = lent.map(|(name, _)| format!("{{ {name}.new ≡ {call}·{name}{arguments} }}"));
    std::iter::once(answer).chain(left).collect()
}

fn fault(function: &Function) -> Option<String> {
    let name = &function.name;
    if function.exported {
        let Some(call) = call_of(name) else {
            return Some(format!("{name}: exported, without the number of the interface in its name"));
        };
        let clauses = expected(call, function);
        if function.clauses != clauses {
            return Some(format!("{name}: its contract is not\n    {}", clauses.join("\n    ")));
        }
    }
    if function.public && function.requires > 0 {
        return Some(format!("{name}: public, with a `requires`"));
    }
    if function.public && function.clauses.is_empty() && !WITHOUT.iter().any(|(known, _)| known == name) {
        return Some(format!("{name}: public, without an `ensures`"));
    }
    None
}

/// One line for each function whose contract is not as it has to be.
pub fn faults(project: &Project) -> Vec<String> {
    let mut faults = Vec::new();
    for file in &project.files {
        if let Text::Source(source) = &file.text {
            faults.extend(source.functions.iter().filter_map(fault).map(|fault| format!("{}: {fault}", file.path)));
        }
    }
    faults
}

#[cfg(test)]
mod tests {
    use super::*;
    use crate::source::parse;

    const SEND: &str = "#[unsafe(no_mangle)]
pub extern \"C\" fn brazulint4_send_named(
    line: u32,
    samples: &[u16],
    symbols: &mut [u16],
) -> SendAnswer
    ensures answer { result ≡ send_named·answer line samples.now symbols.old }
    ensures symbols { symbols.new ≡ send_named·symbols line samples.now symbols.old }
{
    send(line)
}
";

    fn told(text: &str) -> Option<String> {
        fault(&parse(text).functions[0])
    }

    #[test]
    fn as_it_has_to_be() {
        assert_eq!(told(SEND), None);
    }

    #[test]
    fn without_parameters() {
        let version =
            "#[unsafe(no_mangle)]\npub extern \"C\" fn brazulint4_version() -> u32\n    ensures { result ≡ version·answer }\n{\n    1\n}\n";
        assert_eq!(told(version), None);
        assert!(told(&version.replace("version·answer", "lengths·answer")).is_some());
    }

    #[test]
    fn without_the_interface() {
        assert!(told(&SEND.replace("brazulint4_", "brazulint_")).is_some());
    }

    #[test]
    fn half_of_it() {
        let half: String = SEND.lines().filter(|line| !line.contains("ensures symbols")).map(|line| format!("{line}\n")).collect();
        assert!(told(&half).is_some());
    }

    #[test]
    fn with_a_condition() {
        assert!(told(&SEND.replace("    ensures answer", "    requires { line ≡ 1 }\n    ensures answer")).is_some());
        assert!(told("pub fn half(n: u16) -> u16\n    requires { n ≡ 1 }\n    ensures { result ≡ n }\n{\n    n\n}\n").is_some());
    }

    #[test]
    fn another_answer() {
        assert!(told(&SEND.replace("send_named·answer", "send·answer")).is_some());
        assert!(told("pub fn half(n: u16) -> u16 {\n    n\n}\n").is_some());
    }
}
