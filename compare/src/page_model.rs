//! A model of the valve book's page, written from document 02, Change 1, and document 01's questions by someone who had read nothing
//! of this repository but the declaration of `fabrwent_page` in the header and its comment. Its readings: READINGS.md, "The valve book".
//! It is meant to be plainly right, not fast: "latest earlier" and "first later" are searches through the lists.

pub struct Told {
    pub number: u32,
    pub place: u32,
    pub pages: u64,
}

pub fn page(moments: &[u64], outputs: &[u32], values: &[u32], page: u64, memory: &mut [u8]) -> Told {
    // Question 1.
    if memory.len() < 2700 {
        return refusal(1);
    }
    if moments.len() != outputs.len() || moments.len() != values.len() {
        return refusal(1);
    }
    let writes = moments.len();

    // Question 9.
    for i in 1..writes {
        if moments[i] < moments[i - 1] {
            return refusal(9);
        }
    }

    // Question 11.
    for i in 0..writes {
        if outputs[i] >= 16 {
            return refusal(11);
        }
        for j in 0..writes {
            if j != i && moments[j] == moments[i] && outputs[j] == outputs[i] {
                return refusal(11);
            }
        }
    }

    // The openings: (moment opened, output, milliseconds open or none).
    let mut openings: Vec<(u64, u32, Option<u64>)> = Vec::new();
    for i in 0..writes {
        let value_before = match (0..i).rev().find(|&j| outputs[j] == outputs[i]) {
            Some(j) => values[j],
            None => 0,
        };
        if value_before == 0 && values[i] != 0 {
            let closing = (i + 1..writes).find(|&j| outputs[j] == outputs[i] && values[j] == 0);
            let open_for = closing.map(|j| moments[j] - moments[i]);
            openings.push((moments[i], outputs[i], open_for));
        }
    }
    openings.sort_by_key(|&(opened, output, _)| (opened, output));

    // Their rows.
    let mut rows: Vec<String> = Vec::new();
    for (opened, output, open_for) in openings {
        let last = match open_for {
            Some(milliseconds) => milliseconds.to_string(),
            None => "-".repeat(20),
        };
        rows.push(row(&output.to_string(), &opened.to_string(), &last));
    }

    // The pages, all of them.
    let mut pages: Vec<Vec<String>> = Vec::new();
    for some_rows in rows.chunks(59) {
        let mut one = vec![row("NR", "OPENED", "OPEN FOR")];
        one.extend_from_slice(some_rows);
        pages.push(one);
    }
    if pages.is_empty() {
        pages.push(vec![row("NR", "OPENED", "OPEN FOR")]);
    }
    let number_of_pages = pages.len() as u64;

    // The page asked for.
    let mut asked: Vec<String> = Vec::new();
    for (index, one) in pages.into_iter().enumerate() {
        if index as u64 + 1 == page {
            asked = one;
        }
    }
    while asked.len() < 60 {
        asked.push(row("", "", ""));
    }
    let text: String = asked.concat();
    assert_eq!(text.len(), 2700);
    memory[..2700].copy_from_slice(text.as_bytes());

    Told { number: 0, place: 0, pages: number_of_pages }
}

fn refusal(number: u32) -> Told {
    Told { number, place: 0, pages: 0 }
}

fn row(number: &str, opened: &str, open_for: &str) -> String {
    let text = format!("{:>2} {:>20} {:>20}\n", number, opened, open_for);
    assert_eq!(text.len(), 45);
    text
}
