//! Prints what the desk's program prints for a request: the vertices that are
//! reached, in method 4 the pairs that a walk joins.
//!
//! The words are hexadecimal arguments; without any, the printed request:
//! two vertices and one edge from 0 to 1 of weight -5.

use std::fmt::Display;
use std::num::ParseIntError;

use vukstaja::{solve, Method, Refusal, Routes};

const PRINTED: [u64; 2] = [0x1000_0200_0010_0000, 0x0001_0000_FFFF_FFFB];

fn main() -> Result<(), ParseIntError> {
    let request = words()?;
    match solve(&request) {
        Ok(routes) => print_routes(&routes),
        Err(refusal) => print_refusal(&refusal),
    }
    Ok(())
}

fn words() -> Result<Vec<u64>, ParseIntError> {
    let given: Result<Vec<u64>, _> = std::env::args()
        .skip(1)
        .map(|word| u64::from_str_radix(&word, 16))
        .collect();
    given.map(|words| match words.is_empty() {
        true => PRINTED.to_vec(),
        false => words,
    })
}

fn print_routes(routes: &Routes) {
    let header = routes.header;
    println!(
        "{} {} {} {} {} {}",
        header.method as u64,
        header.vertices,
        header.edges,
        header.source,
        routes.report.rounds,
        routes.report.verdict
    );
    match header.method {
        Method::FloydWarshall => print_pairs(routes),
        _ => print_vertices(routes),
    }
    if header.method == Method::BellmanFordRoute {
        let edges = routes.route.iter().map(|edge| format!(" {edge}"));
        println!("route{}", edges.collect::<String>());
    }
}

fn print_vertices(routes: &Routes) {
    let lines = routes.distances.iter().zip(&routes.parents);
    for (vertex, (distance, parent)) in lines.enumerate() {
        if let Some(distance) = distance {
            println!("{vertex} {distance} {}", or_dash(parent));
        }
    }
}

fn print_pairs(routes: &Routes) {
    for (from, row) in routes.rows().enumerate() {
        for (to, distance) in row.iter().enumerate() {
            if let Some(distance) = distance {
                println!("{from} {to} {distance}");
            }
        }
    }
}

fn print_refusal(refusal: &Refusal) {
    match refusal.place {
        Some(place) => println!("refused {} {place}", refusal.number),
        None => println!("refused {}", refusal.number),
    }
}

fn or_dash(value: &Option<impl Display>) -> String {
    value.as_ref().map_or("-".to_string(), |v| v.to_string())
}
