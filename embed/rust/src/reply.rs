//! Outcomes with fields, from the texts of docs/FORMATS.md, "Outcomes and refusals".

/// What became of a submission.
#[derive(Clone, Debug, PartialEq, Eq)]
#[non_exhaustive]
pub enum Outcome {
    /// It is this commit.
    Done { commit: u64 },
    /// This later commit touched the path; `kind` is `created`, `changed` or `deleted`.
    Conflict {
        store: String,
        path: String,
        kind: String,
        commit: u64,
    },
    /// The tree would break a rule, or the chain failed, or the domain is not live: the reply.
    Other(String),
}

impl Outcome {
    pub(crate) fn of(reply: &str) -> Outcome {
        Outcome::done(reply)
            .or_else(|| Outcome::conflict(reply))
            .unwrap_or_else(|| Outcome::Other(reply.to_owned()))
    }

    fn done(reply: &str) -> Option<Outcome> {
        let commit = reply.strip_prefix("done ")?.parse().ok()?;
        Some(Outcome::Done { commit })
    }

    fn conflict(reply: &str) -> Option<Outcome> {
        let (store, rest) = reply.strip_prefix("conflict ")?.split_once(' ')?;
        let (rest, commit) = rest.rsplit_once(' ')?;
        let (path, kind) = rest.rsplit_once(' ')?;
        Some(Outcome::Conflict {
            store: store.to_owned(),
            path: unquoted(path)?,
            kind: kind.to_owned(),
            commit: commit.parse().ok()?,
        })
    }
}

// The text of a JSON string, as the broker writes it: short escapes, and those with four digits for other control characters.
fn unquoted(json: &str) -> Option<String> {
    let mut parts = json.strip_prefix('"')?.strip_suffix('"')?.chars();
    let mut text = String::new();
    while let Some(part) = parts.next() {
        if part != '\\' {
            text.push(part);
            continue;
        }
        text.push(match parts.next()? {
            'n' => '\n',
            't' => '\t',
            'r' => '\r',
            'b' => '\u{8}',
            'f' => '\u{c}',
            'u' => {
                let digits: String = parts.by_ref().take(4).collect();
                char::from_u32(u32::from_str_radix(&digits, 16).ok()?)?
            }
            other => other,
        });
    }
    Some(text)
}

#[cfg(test)]
mod tests {
    use super::*;

    #[test]
    fn outcomes() {
        assert_eq!(Outcome::of("done 7"), Outcome::Done { commit: 7 });
        let conflict = Outcome::Conflict {
            store: "config".to_owned(),
            path: "/m:l[k='a \"b']".to_owned(),
            kind: "changed".to_owned(),
            commit: 3,
        };
        assert_eq!(
            Outcome::of(r#"conflict config "/m:l[k='a \"b']" changed 3"#),
            conflict
        );
        let invalid = r#"invalid config "/m:l" mandatory m:k"#;
        assert_eq!(Outcome::of(invalid), Outcome::Other(invalid.to_owned()));
    }
}
