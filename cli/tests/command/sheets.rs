//! The test sheet.

use crate::{ended, Bench, Ended, C7};

const PASSED: &str = "Reckonbough: test sheet

c7.pg
  SHA-256     d07a9345bfc88c74db538c0c9d1ad7fdb9851330eec0369adff78d93aa9b9bef
  vertices    2
  edges       3
  priorities  2 different
  vertex 0    won by Even
  calls       3
  rounds      3
  engines     all three agree
  checked     Zielonka: yes
  checked     promotion: yes

  library     reckonbough 0.1.0
  files       1
PASSED
";

#[test]
fn a_sheet_that_passed() {
    let bench = Bench::new("sheet");
    bench.file("c7.pg", C7);
    assert_eq!(bench.run(&["sheet", "c7.pg", "--html", "sheet.html"]), ended(0, PASSED, ""));
    let html = bench.text("sheet.html");
    assert!(html.contains("<td>won by Even</td>") && html.contains(">PASSED<") && html.ends_with("</html>\n"));
    assert!(!html.contains("href") && !html.contains("src=") && !html.contains("url("));
}

#[test]
fn a_sheet_that_failed_says_why_and_fits_the_page() {
    let bench = Bench::new("failed");
    let long = format!("{}<&>.pg", "long name ".repeat(12));
    bench.file("c7.pg", C7);
    bench.file(&long, "0 0 0 9;");
    let Ended(status, out, err) = bench.run(&["sheet", &long, "nowhere.pg", "c7.pg", "--html", "sheet.html"]);
    assert_eq!((status, err.as_str()), (1, ""));
    assert_eq!(out.lines().last(), Some("FAILED: 1 unreadable, 1 refused"));
    assert!(out.contains("(7 at edge 0)") && out.lines().all(|line| line.chars().count() <= 80), "{out}");
    assert!(bench.text("sheet.html").contains("name &lt;&amp;&gt;.pg</h2>"));
    assert_eq!(bench.run(&["sheet", "c7.pg", "--html", "no/such/folder"]).0, 1);
}
