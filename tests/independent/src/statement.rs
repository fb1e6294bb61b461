//! The statement of an accepted run.

use crate::margin::Margin;
use crate::rows::Block;
use crate::text;

const TOP: &[u8] = b"STM;1\nISIN;BLOCK;SCEN;IM;VM\n";

/// Spells the statement whole.
pub fn spell(margin: &Margin) -> Vec<u8> {
    let mut statement = Vec::with_capacity(TOP.len() + 64 + 48 * margin.rows.len());
    statement.extend_from_slice(TOP);
    for row in &margin.rows {
        statement.extend_from_slice(&row.isin.bytes());
        statement.extend_from_slice(match row.block {
            Block::Trade => b";T;",
            Block::Failed => b";F;",
            Block::Held => b";H;",
            Block::CashOnly => b";C;",
        });
        text::spell(row.scenario as i64, &mut statement);
        cell(row.initial, &mut statement);
        cell(row.variation, &mut statement);
        statement.push(b'\n');
    }
    statement.extend_from_slice(b"TOTAL");
    cell(margin.margin, &mut statement);
    cell(margin.rounded, &mut statement);
    statement.extend_from_slice(b"\nEND");
    cell(margin.rows.len() as i64, &mut statement);
    statement.push(b'\n');
    statement
}

fn cell(number: i64, statement: &mut Vec<u8>) {
    statement.push(b';');
    text::spell(number, statement);
}
