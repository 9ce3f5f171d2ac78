//! CSV of standard input: sums of the second column by the first, then all rows by rising third column.
use std::collections::BTreeMap;

fn main() {
    let given = rust_guests::input();
    let mut reader = csv::Reader::from_reader(given.as_slice());
    let mut rows: Vec<csv::StringRecord> = reader.records().map(Result::unwrap).collect();
    let mut sums = BTreeMap::<String, i64>::new();
    for row in &rows {
        *sums.entry(row[0].to_string()).or_default() += row[1].parse::<i64>().unwrap();
    }
    rows.sort_by(|a, b| a[2].cmp(&b[2]));
    let mut writer = csv::Writer::from_writer(std::io::stdout());
    for (name, sum) in sums {
        writer.write_record([name, sum.to_string()]).unwrap();
    }
    for row in rows {
        writer.write_record([&row[2], &row[0]]).unwrap();
    }
}
