//! Reads the CommonMark examples: a JSON array of objects whose values are
//! strings without `\u`, or whole numbers.

/// One object: its names and values in order, a number as its digits.
pub type Object = Vec<(String, String)>;

/// The objects of the array, or nothing where the file has another form.
pub fn objects(json: &str) -> Option<Vec<Object>> {
    let mut rest = json.trim_start().strip_prefix('[')?.trim_start();
    let mut objects = Vec::new();
    while !rest.starts_with(']') {
        let object;
        (object, rest) = read_object(rest)?;
        objects.push(object);
        rest = rest.trim_start();
        rest = rest.strip_prefix(',').unwrap_or(rest).trim_start();
    }
    Some(objects)
}

fn read_object(json: &str) -> Option<(Object, &str)> {
    let mut rest = json.strip_prefix('{')?.trim_start();
    let mut object = Object::new();
    while !rest.starts_with('}') {
        let (name, after_name) = read_string(rest)?;
        let value = after_name.trim_start().strip_prefix(':')?.trim_start();
        let (value, after_value) = read_value(value)?;
        object.push((name, value));
        rest = after_value.trim_start();
        rest = rest.strip_prefix(',').unwrap_or(rest).trim_start();
    }
    Some((object, &rest[1..]))
}

fn read_value(json: &str) -> Option<(String, &str)> {
    if json.starts_with('"') {
        return read_string(json);
    }
    let end = json.find(|c: char| !c.is_ascii_digit())?;
    Some((json[..end].to_string(), &json[end..]))
}

fn read_string(json: &str) -> Option<(String, &str)> {
    let inner = json.strip_prefix('"')?;
    let mut string = String::new();
    let mut chars = inner.char_indices();
    while let Some((at, char)) = chars.next() {
        match char {
            '"' => return Some((string, &inner[at + 1..])),
            '\\' => string.push(match chars.next()?.1 {
                'n' => '\n',
                't' => '\t',
                'r' => '\r',
                same @ ('"' | '\\' | '/') => same,
                _ => return None,
            }),
            _ => string.push(char),
        }
    }
    None
}
