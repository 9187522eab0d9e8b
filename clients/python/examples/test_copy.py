"""A test of what a CP/M program leaves on its disk: for pytest, in the folder where `examples/make-disks` was run."""

from cpmhost import Host


def test_a_copy_has_the_same_bytes():
    with Host(folder="examples/out") as host, host.open(drives=["copy.img"]) as session:
        before = session.files["A"]["POEM.TXT"]
        session.expect("A>")
        session.type("COPY POEM.TXT VERSE.TXT\r")
        session.expect("A>")
        assert session.files["A"].names() == ["POEM.TXT", "COPY.COM", "VERSE.TXT"]
        assert session.files["A"]["VERSE.TXT"] == session.files["A"]["POEM.TXT"] == before
        assert host.files["copy.img"].names() == ["POEM.TXT", "COPY.COM"]


if __name__ == "__main__":
    test_a_copy_has_the_same_bytes()
    print("test_a_copy_has_the_same_bytes: passed")
