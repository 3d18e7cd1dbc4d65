//! The listing program's text.

use crate::reference::analysis::run;
use crate::reference::files::model_of_file;

/// The program's pass limit.
pub const LIMIT: u32 = 1_000;

/// What the listing program prints for the bytes on its standard input.
pub fn listing(file: &[u8]) -> String {
    let model = match model_of_file(file) {
        Ok(model) => model,
        Err(refusal) => return format!("refused {refusal}\n"),
    };
    let plant = model.plant();
    let mut table = vec![0; plant.table_words()];
    let mut work = table.clone();
    let (answer, k) = run(&plant, LIMIT, &mut table, &mut work);
    let mut present = 0;
    let mut lines = String::new();
    for piece in plant.all_pieces() {
        let words = &table[plant.piece_places(piece)];
        if words[0] == 1 {
            present += 1;
            lines += &format!("{} {}", piece.location, piece.face);
            if plant.any_cut() {
                lines += &format!(" {}", piece.piece);
            }
            for bound in &words[1..] {
                lines += &format!(" {bound}");
            }
            lines += "\n";
        }
    }
    format!("{} {k} {present}\n{lines}", answer.word())
}
