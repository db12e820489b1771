//! Whether the lines of a listing are its ids: the library writes ids as they are, and one of them may have a line feed.

/// Whether the id of a package has a line feed.
///
/// The library has read the document, so that it is JSON, which writes a line feed in a text as an escape, and its packages are objects
/// in the list `packages`. A key with an escape is taken for the one that it may spell.
pub(crate) fn has_id_of_several_lines(document: &[u8]) -> bool {
    let mut rest = document;
    let (mut depth, mut in_packages, mut is_id) = (0, false, false);
    while let Some((&byte, after)) = rest.split_first() {
        rest = after;
        match byte {
            b'{' | b'[' => depth += 1,
            b'}' | b']' => depth -= 1,
            b'"' => {
                let text = rest_of_string(&mut rest);
                match (depth, is_before_value(rest)) {
                    (1, true) => in_packages = may_spell(text, b"packages"),
                    (3, true) => is_id = in_packages && may_spell(text, b"id"),
                    (3, false) if is_id && has_line_feed(text) => return true,
                    _ => {}
                }
            }
            _ => {}
        }
    }
    false
}

/// What is left of a string up to its closing quote, behind which the rest begins then.
fn rest_of_string<'d>(rest: &mut &'d [u8]) -> &'d [u8] {
    let whole = *rest;
    let mut length = 0;
    while whole[length] != b'"' {
        length += if whole[length] == b'\\' { 2 } else { 1 };
    }
    *rest = &whole[length + 1..];
    &whole[..length]
}

/// Whether a colon comes next, so that what stood before is a key.
fn is_before_value(rest: &[u8]) -> bool {
    rest.trim_ascii_start().starts_with(b":")
}

/// Whether a key is this one, or has an escape, so that it may be.
fn may_spell(key: &[u8], name: &[u8]) -> bool {
    key == name || key.contains(&b'\\')
}

/// Whether one of the escapes of a string is that of a line feed.
fn has_line_feed(string: &[u8]) -> bool {
    let mut rest = string;
    while let Some(at) = rest.iter().position(|&byte| byte == b'\\') {
        match &rest[at + 1..] {
            [b'n', ..] | [b'u', b'0', b'0', b'0', b'a' | b'A', ..] => return true,
            escape => rest = &escape[1..],
        }
    }
    false
}

#[cfg(test)]
mod tests {
    use super::*;

    #[test]
    fn sees_each_way_to_write_a_line_feed() {
        for id in [r"a\nb", r"\\\n", r"\u000a", r"a\u000Ab", r#"\"\n"#] {
            let document = format!(r#"{{"packages": [{{"name": "a"}}, {{"name": "b", "id" : "{id}"}}]}}"#);
            assert!(has_id_of_several_lines(document.as_bytes()), "{document}");
        }
        for document in [
            r#"{"packages": [{"i\u0064": "a\nb"}]}"#,
            r#"{"x": "packages", "pack\u0061ges": [[], {}, {"x": [{"id": ""}], "id": "a\nb"}]}"#,
        ] {
            assert!(has_id_of_several_lines(document.as_bytes()), "{document}");
        }
    }

    #[test]
    fn sees_none_elsewhere() {
        for id in [r"a\\nb", r"\u000d", r"\\u000a", r#"\"n"#, "n", ""] {
            let document = format!(r#"{{"packages": [{{"name": "a\nb", "id": "{id}", "x": {{"id": "a\nb"}}}}]}}"#);
            assert!(!has_id_of_several_lines(document.as_bytes()), "{document}");
        }
        for document in [
            r#"{"id": "a\nb"}"#,
            r#"{"packages": [{"id": "a"}], "metadata": [{"id": "a\nb"}, {"packages": [{"id": "a\nb"}]}]}"#,
            r#"{"packages": [{"id": "a", "description": "id", "x": "a\nb", "y": ["id", "a\nb"]}]}"#,
            r#"{"packages": [{"description": "]}\"[{", "id": "a"}], "x": "a\nb"}"#,
            "{}",
        ] {
            assert!(!has_id_of_several_lines(document.as_bytes()), "{document}");
        }
    }
}
