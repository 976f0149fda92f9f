//! moka's first example of tasks. README.md shows the lines that differ.
#[path = "common/tasks.rs"]
mod tasks;
use rookdresser::{future::Loading, Setup};
use tasks::{run, Spawned};

#[test]
fn the_tasks_of_moka_s_page() -> Result<(), Box<dyn std::error::Error>> {
    const NUM_TASKS: usize = 16;
    const NUM_KEYS_PER_TASK: usize = 64;
    fn value(n: usize) -> String {
        format!("value {n}")
    }
    let cache = Loading::<usize, String, ()>::open(&Setup::of(10_000))?;
    let tasks: Vec<_> = (0..NUM_TASKS)
        .map(|i| {
            let my_cache = cache.clone();
            let (start, end) = (i * NUM_KEYS_PER_TASK, (i + 1) * NUM_KEYS_PER_TASK);
            Box::pin(async move {
                for key in start..end {
                    my_cache.store(&key, value(key), 1).unwrap();
                    assert_eq!(my_cache.look(&key), Ok(Some(value(key).into())));
                }
                for key in (start..end).step_by(4) {
                    my_cache.drop_key(&key).unwrap();
                }
            }) as Spawned
        })
        .collect();
    run(4, tasks);
    for key in 0..(NUM_TASKS * NUM_KEYS_PER_TASK) {
        let expected = if key % 4 == 0 { None } else { Some(value(key).into()) };
        assert_eq!(cache.look(&key)?, expected);
    }
    Ok(())
}

#[test]
fn the_page_s_lines_of_it_are_these() {
    let (page, program) = (include_str!("../README.md"), include_str!("ported.rs"));
    let rows = page.split("first example of tasks").nth(1).expect("the page has a table of it").lines().skip(4);
    let rows: Vec<_> = rows.take_while(|line| line.starts_with("| `")).collect();
    assert_eq!(rows.len(), 5);
    for row in rows {
        let ours = row.trim_end_matches("` |").rsplit("` | `").next().expect("a row has two cells");
        assert!(program.lines().any(|line| line.trim() == ours), "{ours}");
    }
}
