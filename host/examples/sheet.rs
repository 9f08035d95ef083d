//! Converts `() => this` and prints the rows of the result: kind, attr, name and end, and how an Ident or a Declarator is
//! spelled.

use thawcopper::{convert, Node, Refusal, Switches, Table};

fn main() -> Result<(), Refusal> {
    let script = Node::program([Node::statement(Node::arrow([], Node::this()))]);
    let table = Table::from_tree(&script);
    let converted = convert(&Switches::ARROWS, &table)?;
    let names = converted.names(&table)?;
    for row in &converted.rows {
        let spelled = names.spelling(&table, row).map_or(String::new(), |name| format!(" {}", name));
        println!("{} {} {} {}{}", row.kind, row.attr, row.name, row.end, spelled);
    }
    Ok(())
}
