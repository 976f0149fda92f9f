"""The labels of clauses and what they mean, as docs/labels.txt has them."""
from places import TOP

PAGE = TOP / "docs" / "labels.txt"


def labels_in(page=PAGE):
    """The rows of the page: the section, the label and its meaning."""
    section = ""
    for line in page.read_text().split("\n"):
        if line.startswith("## "):
            section = line[3:]
        elif line and not line.startswith("#"):
            label, _, meaning = line.partition(": ")
            yield section, label, meaning


def labels_of(crates):
    """The labels that clauses have, and those and the fields of records that clauses are."""
    labels = {label for crate in crates.values() for clauses in crate.clauses.values() for label in clauses} - {"requires", "ensures"}
    return {label for label in labels if "." not in label}, {label.rpartition(".")[2] for label in labels}
