//! What an archive of objects says of itself: the machine that it is for, and its symbols.

/// A file in an archive: its name as it stands there, and its bytes.
struct Member<'a> {
    name: &'a [u8],
    bytes: &'a [u8],
}

/// The members of an archive, as far as they are whole; none where it is no archive.
fn members(archive: &[u8]) -> Vec<Member<'_>> {
    let mut found = Vec::new();
    let mut rest = archive.strip_prefix(b"!<arch>\n").unwrap_or_default();
    while let Some((member, after)) = member(rest) {
        found.push(member);
        rest = after;
    }
    found
}

/// The first member, and what is behind it. Before each stand 60 bytes: its name in 16, its size in
/// decimal digits at 48, and a mark at the end; behind one of odd size stands a byte more.
fn member(archive: &[u8]) -> Option<(Member<'_>, &[u8])> {
    let (head, rest) = archive.split_at_checked(60)?;
    let (name, size) = (head.get(..16)?, head.get(48..58)?);
    let size: usize = std::str::from_utf8(size).ok()?.trim_end().parse().ok()?;
    let (bytes, rest) = rest.split_at_checked(size)?;
    let name = name.trim_ascii_end();
    Some((
        Member { name, bytes },
        rest.get(size % 2..).unwrap_or_default(),
    ))
}

/// The machine of the first object, by the number that ELF has for it.
pub fn machine(archive: &[u8]) -> Option<u16> {
    let members = members(archive);
    let objects = members.iter().map(|member| member.bytes);
    let object = objects.into_iter().find(|o| o.starts_with(b"\x7fELF"))?;
    let number = [*object.get(18)?, *object.get(19)?];
    // Byte 5 says which byte of a number comes first.
    Some(match object.get(5)? {
        2 => u16::from_be_bytes(number),
        _ => u16::from_le_bytes(number),
    })
}

/// The names in the archive's index, by which a linker finds its objects: a count in four bytes, high
/// byte first, as many places of four bytes, then the names, each ended by a 0.
pub fn symbols(archive: &[u8]) -> Vec<&str> {
    let members = members(archive);
    let index = members.iter().find(|member| member.name == b"/");
    let names = index.and_then(|index| {
        let (count, rest) = index.bytes.split_first_chunk()?;
        rest.get(4 * usize::try_from(u32::from_be_bytes(*count)).ok()?..)
    });
    let names = names.unwrap_or_default().split(|&byte| byte == 0);
    names
        .filter_map(|name| std::str::from_utf8(name).ok())
        .collect()
}

/// What keeps an archive from being linked on Linux, for an architecture by the name that Rust has for
/// it, and with a symbol that carries the interface's version, `NAME_number`; none where nothing does.
pub fn fault(archive: &[u8], arch: &str, interface: &str) -> Option<String> {
    let machine = match machine(archive) {
        None => return Some("is no archive of ELF objects".to_owned()),
        Some(62) => "x86_64".to_owned(),
        Some(183) => "aarch64".to_owned(),
        Some(number) => format!("machine {number} of ELF"),
    };
    let known = ["x86_64", "aarch64"].contains(&arch);
    if machine != arch && (known || !machine.starts_with("machine")) {
        return Some(format!("is for {machine}, and the target is {arch}"));
    }
    let symbols = symbols(archive);
    if symbols.contains(&interface) {
        return None;
    }
    let family = interface.trim_end_matches(|c: char| c.is_ascii_digit());
    let other = symbols.iter().find(|symbol| symbol.starts_with(family));
    let other = other.map_or("none", |symbol| symbol);
    Some(format!(
        "is of another version of the interface: it has {other}, and this crate needs {interface}"
    ))
}
