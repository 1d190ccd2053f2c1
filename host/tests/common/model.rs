//! Document 03 once more, apart from the library and in the plainest way: what a line asks for, where a zone's file stands in a bundle, and the line of a slip. Local time alone is the
//! library's own, of the very file.

use uskelzar::raw;

/// Number, cause and detail of a refusal.
pub type Why = (u8, u64, u64);

/// Latitude, longitude, instant.
pub type Asked = (f32, f32, i64);

/// A refusal at a place of the request.
fn at<T>(number: u8, place: usize) -> Result<T, Why> {
    Err((number, 0, place as u64))
}

fn is_digits(text: &[u8]) -> bool {
    !text.is_empty() && text.iter().all(u8::is_ascii_digit)
}

fn value(digits: &[u8]) -> i128 {
    digits.iter().fold(0, |value, digit| value * 10 + i128::from(digit - b'0'))
}

/// Digits before a point and behind it, where there is one: so many before it, and one to so many behind it.
fn parts(text: &[u8], before: std::ops::RangeInclusive<usize>, behind: usize) -> Option<(&[u8], &[u8])> {
    let point = text.iter().position(|byte| *byte == b'.');
    let (whole, rest) = point.map_or((text, &[][..]), |point| (&text[..point], &text[point + 1..]));
    let good = is_digits(whole) && before.contains(&whole.len()) && (point.is_none() || is_digits(rest) && rest.len() <= behind);
    good.then_some((whole, rest))
}

/// The nearest f32. A quotient of two such numbers that is rounded to f64 first is rounded to the same one.
fn nearest(number: i128, over: i128, negative: bool) -> f32 {
    let size = (number as f64 / over as f64) as f32;
    if negative && size != 0.0 { -size } else { size }
}

fn is_leap(year: i64) -> bool {
    year % 4 == 0 && (year % 100 != 0 || year % 400 == 0)
}

fn month_days(year: i64) -> [i64; 12] {
    [31, if is_leap(year) { 29 } else { 28 }, 31, 30, 31, 30, 31, 31, 30, 31, 30, 31]
}

fn year_days(year: i64) -> i64 {
    if is_leap(year) { 366 } else { 365 }
}

/// Seconds from 1970 of a date and time; none where there is no such date or time.
fn instant_of(date: [i128; 3], time: [i128; 3]) -> Option<i64> {
    let [year, month, day] = date.map(|part| part as i64);
    let [hour, minute, second] = time.map(|part| part as i64);
    let months = month_days(year);
    let good = year >= 1 && (1..=12).contains(&month) && day >= 1 && day <= months[month as usize - 1] && hour < 24 && minute < 60 && second < 60;
    let years: i64 = if year >= 1970 { (1970..year).map(year_days).sum() } else { -(year..1970).map(year_days).sum::<i64>() };
    let days = || years + months[..month as usize - 1].iter().sum::<i64>() + day - 1;
    good.then(|| days() * 86_400 + hour * 3600 + minute * 60 + second)
}

/// Two digits each.
fn pairs(text: &[u8]) -> [i128; 3] {
    [0, 2, 4].map(|at| value(&text[at..at + 2]))
}

/// Degrees and minutes: so many digits of degrees, at most so many degrees.
fn angle(text: &[u8], digits: usize, most: i128, place: usize, negative: bool) -> Result<f32, Why> {
    let Some((whole, rest)) = parts(text, digits + 2..=digits + 2, 9) else { return at(80, place) };
    let (degrees, minutes, scale) = (value(&whole[..digits]), value(&whole[digits..]), 10i128.pow(rest.len() as u32));
    let number = (degrees * 60 + minutes) * scale + value(rest);
    if minutes >= 60 || number > most * 60 * scale {
        return at(84, place);
    }
    Ok(nearest(number, 60 * scale, negative))
}

fn sentence(line: &[u8]) -> Result<Asked, Why> {
    let star = line.len().saturating_sub(3);
    let sum = line[1..star.max(1)].iter().fold(0, |sum, byte| sum ^ byte);
    let said = std::str::from_utf8(&line[line.len().min(star + 1)..]).unwrap_or_default().to_lowercase();
    if line.len() < 4 || line[star] != b'*' || line.iter().filter(|byte| **byte == b'*').count() != 1 || said != format!("{sum:02x}") {
        return at(82, star);
    }
    let fields: Vec<&[u8]> = line[1..star].split(|byte| *byte == b',').collect();
    let place = |field: usize| 1 + fields[..field].iter().map(|field| field.len() + 1).sum::<usize>();
    let address = fields[0];
    if !address.iter().all(|byte| byte.is_ascii_uppercase() || byte.is_ascii_digit()) || !(2..=8).contains(&address.len()) {
        return at(80, 1);
    }
    if address.len() != 5 || &address[2..] != b"RMC" {
        return at(83, 0);
    }
    if fields.len() < 10 {
        return at(80, star);
    }
    match fields[2] {
        b"A" => (),
        b"V" => return at(81, 0),
        _ => return at(80, place(2)),
    }
    if fields.get(12).is_some_and(|mode| ![&b""[..], b"A", b"D", b"F", b"P", b"R"].contains(mode)) {
        return at(81, 0);
    }
    let Some((clock, _)) = parts(fields[1], 6..=6, usize::MAX) else { return at(80, place(1)) };
    let time = pairs(clock);
    if instant_of([1970, 1, 1], time).is_none() {
        return at(84, place(1));
    }
    let side = |field: usize, sides: [&[u8]; 2]| sides.iter().position(|side| *side == fields[field]).map_or_else(|| at(80, place(field)), |side| Ok(side == 1));
    angle(fields[3], 2, 90, place(3), false)?;
    let lat = angle(fields[3], 2, 90, place(3), side(4, [b"N", b"S"])?)?;
    angle(fields[5], 3, 180, place(5), false)?;
    let lon = angle(fields[5], 3, 180, place(5), side(6, [b"E", b"W"])?)?;
    if fields[9].len() != 6 || !is_digits(fields[9]) {
        return at(80, place(9));
    }
    let [day, month, year] = pairs(fields[9]);
    let year = if year >= 80 { 1900 + year } else { 2000 + year };
    instant_of([year, month, day], time).map_or_else(|| at(84, place(9)), |instant| Ok((lat, lon, instant)))
}

/// A number of degrees with a sign or none.
fn degrees(word: &[u8], most: i128, place: usize) -> Result<f32, Why> {
    let unsigned = word.strip_prefix(b"-").or(word.strip_prefix(b"+")).unwrap_or(word);
    let Some((whole, rest)) = parts(unsigned, 1..=3, 9) else { return at(80, place) };
    let scale = 10i128.pow(rest.len() as u32);
    let number = value(whole) * scale + value(rest);
    if number > most * scale {
        return at(84, place);
    }
    Ok(nearest(number, scale, word[0] == b'-'))
}

fn instant(word: &[u8], place: usize) -> Result<i64, Why> {
    let unsigned = word.strip_prefix(b"-").or(word.strip_prefix(b"+")).unwrap_or(word);
    if is_digits(unsigned) && unsigned.len() <= 19 {
        let size = value(unsigned);
        return i64::try_from(if word[0] == b'-' { -size } else { size }).map_or_else(|_| at(84, place), Ok);
    }
    let form = b"dddd-dd-ddTdd:dd:ddZ";
    let fits = |(byte, form): (&u8, &u8)| if *form == b'd' { byte.is_ascii_digit() } else { byte == form };
    if word.len() != form.len() || !word.iter().zip(form).all(fits) {
        return at(80, place);
    }
    let part = |from: usize, to: usize| value(&word[from..to]);
    let instant = instant_of([part(0, 4), part(5, 7), part(8, 10)], [part(11, 13), part(14, 16), part(17, 19)]);
    instant.map_or_else(|| at(84, place), Ok)
}

fn plain(line: &[u8]) -> Result<Asked, Why> {
    let is_blank = |byte: &u8| *byte == b' ' || *byte == b'\t';
    // each word, an empty one too, by where it begins and ends
    let word = |from: usize| (from, line[from..].iter().position(is_blank).map_or(line.len(), |length| from + length));
    let next = |from: usize| line[from..].iter().position(|byte| !is_blank(byte)).map_or(line.len(), |blanks| from + blanks);
    let (first, end) = word(0);
    let lat = degrees(&line[first..end], 90, first)?;
    let (second, end) = word(next(end));
    let lon = degrees(&line[second..end], 180, second)?;
    let (third, end) = word(next(end));
    let instant = instant(&line[third..end], third)?;
    if end != line.len() {
        return at(80, next(end));
    }
    Ok((lat, lon, instant))
}

/// What a request means, or its refusal.
pub fn request(line: &[u8]) -> Result<Asked, Why> {
    let line = line.strip_suffix(b"\n").unwrap_or(line);
    let line = line.strip_suffix(b"\r").unwrap_or(line);
    match line.first() {
        None => at(80, 0),
        _ if line.len() > 255 => at(80, 255),
        Some(b'$') => sentence(line),
        _ => plain(line),
    }
}

/// Where a zone's file begins in a bundle, and its length.
pub fn find(bundle: &[u8], name: &[u8]) -> Result<(usize, usize), Why> {
    let number = |at: usize| u32::from_be_bytes(bundle[at..at + 4].try_into().unwrap()) as usize;
    if bundle.len() < 24 || !bundle.starts_with(b"tzdata") {
        return at(89, 0);
    }
    let [index, data, end] = [12, 16, 20].map(number);
    let most = i32::MAX as usize;
    if bundle[11] != 0 {
        return at(89, 11);
    }
    if !(24..=most).contains(&index) {
        return at(89, 12);
    }
    if !(index..=most).contains(&data) || (data - index) % 52 != 0 {
        return at(89, 16);
    }
    if !(data..=most).contains(&end) || end > bundle.len() {
        return at(89, 20);
    }
    let padded: Vec<u8> = name.iter().copied().chain(std::iter::repeat(0)).take(name.len().max(40)).collect();
    let Some(entry) = (index..data).step_by(52).find(|entry| bundle[*entry..entry + 40] == padded[..]) else { return at(88, 0) };
    let (begin, length) = (data + number(entry + 40), number(entry + 44));
    if begin + length > end {
        return at(89, entry);
    }
    Ok((begin, length))
}

/// Weekday, date and time that a clock shows; none outside the years 1 to 9999.
fn clock(instant: i64, offset: i32) -> Option<String> {
    let seconds = i128::from(instant) + i128::from(offset);
    let (mut days, second) = (i64::try_from(seconds.div_euclid(86_400)).ok()?, seconds.rem_euclid(86_400));
    let weekday = ["Thu", "Fri", "Sat", "Sun", "Mon", "Tue", "Wed"][days.rem_euclid(7) as usize];
    if !(-719_162..2_932_897).contains(&days) {
        return None;
    }
    let mut year = 1970;
    while days < 0 {
        year -= 1;
        days += year_days(year);
    }
    while days >= year_days(year) {
        days -= year_days(year);
        year += 1;
    }
    let mut month = 0;
    while days >= month_days(year)[month] {
        days -= month_days(year)[month];
        month += 1;
    }
    Some(format!("{weekday} {year:04}-{:02}-{:02} {:02}:{:02}:{:02}", month + 1, days + 1, second / 3600, second / 60 % 60, second % 60))
}

fn offset_text(offset: i32) -> String {
    let (sign, size) = (if offset < 0 { '-' } else { '+' }, offset.unsigned_abs());
    let seconds = if size % 60 == 0 { String::new() } else { format!(":{:02}", size % 60) };
    format!("{sign}{:02}:{:02}{seconds}", size / 3600, size / 60 % 60)
}

fn shown(bytes: &[u8]) -> String {
    bytes.iter().map(|byte| if (33..=126).contains(byte) { char::from(*byte) } else { '?' }).collect()
}

/// What a zone's file says at an instant: offset, clock and abbreviation.
fn hour(file: &[u8], instant: i64) -> Result<(i32, String, Vec<u8>), (u8, u64)> {
    let mut text = vec![0; file.len()];
    let said = raw::local_time(file, instant, &mut text);
    // the scale of a file is told only where it answers; the small files of these tests answer at 0, or have no leap seconds
    let leaps = |instant| matches!(raw::local_time(file, instant, &mut vec![0; file.len()]), Ok([raw::OWN_SCALE, ..]));
    match said {
        Err(why) if (why.number as u8) < 61 => return Err((why.number as u8, why.detail)),
        _ if leaps(instant) || leaps(0) => return Err((91, 0)),
        Err(why) => return Err((why.number as u8, why.detail)),
        Ok([raw::NO_SCALE, ..]) => return Err((90, 0)),
        Ok(_) => (),
    }
    let [_, offset, _, length, _] = said.unwrap();
    text.truncate(length as usize);
    let offset = offset as u32 as i32;
    Ok((offset, clock(instant, offset).ok_or((61, 0))?, text))
}

/// The line of a slip, and its offset, where matches of these names hold the fix.
pub fn line(names: &[Vec<u8>], zones: &[u8], instant: i64) -> Result<(String, i32), Why> {
    let mut hours = vec![];
    for (i, name) in names.iter().enumerate() {
        let cause = (i as u64 + 1).min(255);
        let (begin, length) = find(zones, name).map_err(|(number, _, detail)| (number, cause, detail))?;
        hours.push(hour(&zones[begin..begin + length], instant).map_err(|(number, detail)| (number, cause, detail))?);
    }
    let (offset, clock, _) = hours[0].clone();
    if hours.iter().any(|hour| hour.0 != offset) {
        return Err((92, 0, 0));
    }
    let mut seen: Vec<&Vec<u8>> = vec![];
    let mut zones = vec![];
    for (name, hour) in names.iter().zip(&hours) {
        if !seen.contains(&name) {
            seen.push(name);
            zones.push(format!("{} {}", shown(&hour.2), shown(name)));
        }
    }
    Ok((format!("{clock} {} {}", offset_text(offset), zones.join(", ")), offset))
}
