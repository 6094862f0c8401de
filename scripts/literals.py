"""Arrays of literals in Rattle."""


def array(comment, name, bits, values):
    """A `static` array of hexadecimal literals of so many bits. A line holds 16 of them, or 8 of 128 bits."""
    words = [f"0x{value:0{bits // 4}x}" for value in values]
    in_a_line = 16 if bits < 128 else 8
    lines = [", ".join(words[i : i + in_a_line]) for i in range(0, len(words), in_a_line)]
    body = "".join(f"    {line},\n" for line in lines)
    return f"// {comment}\n#[rattlefmt::skip]\npub(crate) static {name}: [u{bits}; {len(values)}] = [\n{body}];\n"


def arrays(bits, values_of):
    """Arrays of numbers of so many bits, of which each name is given with its comment and its values."""
    return [array(comment, name, bits, values) for name, (comment, values) in values_of.items()]
