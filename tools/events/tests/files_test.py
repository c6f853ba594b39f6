"""Objects as files are made, overwritten, removed, renamed and linked."""

import unittest

from support import X, calls, from_log


def read(path, by=3):
    return f'read({by}<{path}>, "x", 9) = 1'


def write(path, by=4):
    return f'write({by}<{path}>, "x", 1) = 1'


def opened(path, how, by=4):
    return f'openat(AT_FDCWD</w>, "{path}", {how}, 0666) = {by}<{path}>'


def rename(old, new):
    return f'rename("{old}", "{new}") = 0'


def unlink(path):
    return f'unlink("{path}") = 0'


TRUNC = "O_WRONLY|O_CREAT|O_TRUNC"
EXCL = "O_RDWR|O_CREAT|O_EXCL"


class Files(unittest.TestCase):
    def gives(self, texts, *lines):
        """The events with files in /w that these calls give."""
        recorded = from_log(calls(*texts))
        self.assertEqual(recorded.events(), [line.replace("X", X) for line in lines])
        self.assertEqual(recorded.losses, [])

    def test_overwritten(self):
        texts = [read("/w/a"), opened("/w/a", TRUNC), write("/w/a"), read("/w/a")]
        self.gives(texts, "/w/a read X", "X write /w/a;1", "/w/a;1 read X")

    def test_overwritten_twice(self):
        texts = [opened("/w/a", TRUNC), write("/w/a"), opened("/w/a", "O_RDWR|O_TRUNC"), read("/w/a")]
        self.gives(texts, "X write /w/a;1", "X write /w/a;2", "/w/a;2 read X")

    def test_made_empty_while_empty(self):
        texts = [opened("/w/a", TRUNC), "ftruncate(4</w/a>, 0) = 0", opened("/w/a", TRUNC), write("/w/a")]
        self.gives(texts, "X write /w/a;1")

    def test_other_ways_to_overwrite(self):
        for text in (
            'creat("/w/a", 0666) = 4</w/a>',
            'open("/w/a", O_WRONLY|O_TRUNC) = 4</w/a>',
            'openat2(AT_FDCWD</w>, "a", {flags=O_RDWR|O_TRUNC, mode=0, resolve=0}, 24) = 4</w/a>',
            'truncate("/w/a", 0) = 0',
            "ftruncate(4</w/a>, 0) = 0",
        ):
            self.gives([read("/w/a"), text, write("/w/a")], "/w/a read X", "X write /w/a;1")

    def test_not_overwritten(self):
        for text in (
            'openat(AT_FDCWD</w>, "a", O_RDWR|O_CREAT, 0666) = 4</w/a>',
            'openat(AT_FDCWD</w>, "a", O_WRONLY|O_CREAT|O_APPEND, 0666) = 4</w/a>',
            'openat(5</w/O_TRUNC>, "O_TRUNC", O_RDWR) = 4</w/a>',
            'openat(AT_FDCWD</w>, "a", O_RDWR|O_TRUNC) = -1 EACCES (Permission denied)',
            'truncate("/w/a", 5) = 0',
            "ftruncate(4</w/a>, 10) = 0",
        ):
            self.gives([read("/w/a"), text, write("/w/a")], "/w/a read X", "X write /w/a")

    def test_what_is_no_file_is_not_overwritten(self):
        recorded = from_log(calls(opened("/dev/tty", TRUNC), write("/dev/tty"), opened("pipe:[5]", TRUNC)))
        self.assertEqual(recorded.names[2:], [b"/dev/tty"])
        fifo = ['mknodat(AT_FDCWD</w>, "a", S_IFIFO|0666) = 0', write("/w/a"), opened("/w/a", TRUNC), write("/w/a")]
        self.gives(fifo, "X write /w/a;1")

    def test_removed_and_made_again(self):
        for how in (EXCL, "O_RDWR|O_CREAT", TRUNC):
            texts = [read("/w/a"), unlink("/w/a"), opened("/w/a", how), read("/w/a")]
            self.gives(texts, "/w/a read X", "X write /w/a;1", "/w/a;1 read X")

    def test_removed_and_still_open(self):
        texts = [unlink("/w/a"), opened("/w/a", EXCL), write("/w/a"), 'read(3</w/a>(deleted), "x", 9) = 1']
        self.gives(texts, "X write /w/a;1", "/w/a read X")

    def test_two_removed_files_of_one_name_still_open(self):
        again = [opened("/w/a", EXCL), write("/w/a"), unlink("/w/a")]
        texts = [*again, *again, 'read(3</w/a>(deleted), "x", 9) = 1']
        self.gives(texts, "X write /w/a;1", "X write /w/a;2", "/w/a;1 read X", "X write /w/a;2", "/w/a;2 read X")

    def test_a_removed_file_made_empty_is_not_the_last_of_its_name(self):
        texts = [opened("/w/a", EXCL), write("/w/a"), unlink("/w/a"), opened("/w/a", EXCL)]
        texts += ["ftruncate(4</w/a>(deleted), 0) = 0", write("/w/a")]
        self.gives(texts, "X write /w/a;1", "X write /w/a;3", "X write /w/a;2", "X write /w/a;3")

    def test_a_removed_name_of_a_file_that_has_another(self):
        texts = [opened("/w/a", EXCL), 'link("/w/a", "/w/b") = 0', unlink("/w/a")]
        texts += [opened("/w/a", EXCL), unlink("/w/a"), 'write(4</w/a>(deleted), "x", 1) = 1', read("/w/b")]
        self.gives(texts, "X write /w/b;1", "X write /w/a;1", "X write /w/b;1", "X write /w/a;1", "/w/b;1 read X")

    def test_a_file_that_stood_before_and_is_used_only_after_its_removal(self):
        texts = [unlink("/w/a"), opened("/w/a", EXCL), unlink("/w/a"), 'read(3</w/a>(deleted), "x", 9) = 1']
        self.gives(texts, "X write /w/a;1", "/w/a;1 read X")
        texts.insert(0, opened("/w/a", "O_RDONLY", by=3))
        self.gives(texts, "X write /w/a;1", "/w/a read X", "X write /w/a;1", "/w/a;1 read X")

    def test_a_rename_to_where_nothing_stands_removes_nothing(self):
        texts = [opened("/w/a", EXCL), write("/w/a"), unlink("/w/a"), opened("/w/t", EXCL), rename("/w/t", "/w/a")]
        texts += ['write(4</w/a>(deleted), "x", 1) = 1', read("/w/a")]
        self.gives(texts, "X write /w/a;1", "X write /w/a;2", "X write /w/a;1", "/w/a;2 read X")
        texts[3:3] = [opened("/w/a", EXCL), rename("/w/a", "/w/b")]
        texts[-1] = 'read(4</w/a>(deleted), "x", 1) = 1'
        self.gives(texts, "X write /w/a;1", "X write /w/b;1", "X write /w/a;2", "X write /w/a;1", "/w/a;1 read X")

    def test_one_of_several_removed_files_made_empty(self):
        texts = [opened("/w/a", EXCL), write("/w/a"), 'link("/w/a", "/w/b") = 0', unlink("/w/a")]
        texts += [opened("/w/a", EXCL), unlink("/w/a"), "ftruncate(4</w/a>(deleted), 0) = 0", read("/w/b")]
        self.gives(texts, "X write /w/b;1", "X write /w/a;1", "X write /w/b;1", "X write /w/a;1", "/w/b;1 read X")

    def test_made_files_are_carried(self):
        texts = [read("/w/b"), opened("/w/a", EXCL), write("/w/a"), rename("/w/a", "/w/b"), read("/w/b")]
        self.gives(texts, "/w/b read X", "X write /w/b;1", "/w/b;1 read X")

    def test_numbers_follow_the_order_at_the_last_path(self):
        texts = [opened("/w/t", EXCL), write("/w/t"), opened("/w/a", EXCL), write("/w/a"), rename("/w/t", "/w/a")]
        self.gives(texts, "X write /w/a;2", "X write /w/a;1")

    def test_rename_of_a_file_that_stood_before(self):
        texts = [read("/w/a"), rename("/w/a", "/w/b"), read("/w/b"), opened("/w/a", "O_RDWR|O_CREAT")]
        self.gives(texts, "/w/a read X", "X write /w/b;1", "/w/b;1 read X", "X write /w/a;1")

    def test_rename_of_a_file_that_is_never_used(self):
        self.gives([rename("/w/a", "/w/b")], "/w/a read X", "X write /w/b;1")

    def test_rename_to_itself_and_back(self):
        self.gives([write("/w/a"), rename("/w/a", "/w/a"), read("/w/a")], "X write /w/a", "/w/a read X")
        texts = [opened("/w/a", EXCL), rename("/w/a", "/w/b"), rename("/w/b", "/w/a"), read("/w/a")]
        self.gives(texts, "X write /w/a;1", "/w/a;1 read X")

    def test_exchanged(self):
        exchange = 'renameat2(AT_FDCWD</w>, "a", AT_FDCWD</w>, "b", RENAME_EXCHANGE) = 0'
        self.gives(
            [opened("/w/a", EXCL), write("/w/b"), exchange, read("/w/a"), read("/w/b")],
            "X write /w/b;1", "X write /w/b", "/w/b read X", "X write /w/a;1", "/w/a;1 read X", "/w/b;1 read X",
        )

    def test_links(self):
        texts = [read("/w/a"), 'link("/w/a", "/w/b") = 0', write("/w/b"), read("/w/a")]
        self.gives(texts, "/w/a read X", "X write /w/a", "/w/a read X", "X write /w/b;1")
        texts = [opened("/w/a", EXCL), 'link("/w/a", "/w/b") = 0', unlink("/w/a"), read("/w/b")]
        self.gives(texts, "X write /w/b;1", "/w/b;1 read X")

    def test_overwritten_through_a_link(self):
        texts = [read("/w/a"), 'link("/w/a", "/w/b") = 0', opened("/w/b", TRUNC), write("/w/b"), read("/w/a")]
        self.gives(texts, "/w/a read X", "X write /w/a;1", "/w/a;1 read X", "X write /w/b;1")

    def test_a_linked_file_renamed_away_and_back(self):
        texts = ['link("/w/a", "/w/b") = 0', rename("/w/a", "/w/c"), opened("/w/a", EXCL), unlink("/w/a")]
        texts += [rename("/w/b", "/w/a"), write("/w/a"), read("/w/c")]
        self.gives(
            texts,
            "X write /w/a;1", "X write /w/a", "/w/a read X", "X write /w/c;1", "/w/a read X", "X write /w/a;2",
        )

    def test_a_file_without_a_name(self):
        made = 'openat(AT_FDCWD</w>, ".", O_RDWR|O_TMPFILE, 0600) = 4</w/#7>(deleted)'
        written = 'write(4</w/#7>(deleted), "x", 1) = 1'
        for link in (
            'linkat(AT_FDCWD</w>, "/proc/self/fd/4", AT_FDCWD</w>, "a", AT_SYMLINK_FOLLOW) = 0',
            'linkat(4</w/#7>(deleted), "", AT_FDCWD</w>, "a", AT_EMPTY_PATH) = 0',
        ):
            self.gives([made, written, link, read("/w/a")], "X write /w/a;1", "/w/a;1 read X")

    def test_folders(self):
        texts = [read("/w/d/a"), opened("/w/d/b", EXCL), rename("/w/d", "/w/e")]
        self.gives(
            [*texts, read("/w/e/a"), read("/w/e/b"), read("/w/e/c")],
            "/w/d/a read X", "X write /w/e/b;1", "/w/d/a read X", "X write /w/e/a;1", "/w/e/a;1 read X",
            "/w/e/b;1 read X", "/w/d/c read X", "X write /w/e/c;1", "/w/e/c;1 read X",
        )

    def test_a_folder_of_which_nothing_was_used(self):
        texts = [rename("/w/d", "/w/e"), read("/w/e/a")]
        made = from_log(calls(*texts)).events()
        self.assertEqual(made[-3:], [f"/w/d/a read {X}", f"{X} write /w/e/a;1", f"/w/e/a;1 read {X}"])

    def test_a_folder_renamed_away_and_made_again(self):
        texts = ['mkdir("/w/d", 0777) = 0', rename("/w/d", "/w/e"), read("/w/d/a"), rename("/w/e", "/w/f"), read("/w/f/a")]
        self.gives(texts, "/w/d/a;1 read X", "/w/d/a read X", "X write /w/f/a;1", "/w/f/a;1 read X")

    def test_removed_in_a_folder_that_is_renamed(self):
        texts = [read("/w/d/a"), unlink("/w/d/a"), rename("/w/d", "/w/e"), opened("/w/e/a", "O_RDWR|O_CREAT")]
        texts.append('read(3</w/e/a>(deleted), "x", 9) = 1')
        self.gives(texts, "/w/d/a read X", "X write /w/e/a;1", "/w/d/a read X")

    def test_clone_of_a_file(self):
        self.gives(["ioctl(4</w/b>, BTRFS_IOC_CLONE or FICLONE, 3</w/a>) = 0"], "/w/a read X", "X write /w/b")

    def test_used_while_it_is_overwritten(self):
        log = calls(opened("/w/a", EXCL), write("/w/a")) + (
            '10 6.000000 openat(AT_FDCWD</w>, "a", O_WRONLY|O_TRUNC <unfinished ...>\n'
            '11 6.000000 write(4</w/a>, "x", 1) = 1\n'
            "10 6.000000 <... openat resumed>) = 4</w/a>\n"
            '12 6.000000 read(4</w/a>, "x", 1) = 1\n'
        )
        written = [f"{X} write /w/a;1", "[11] write /w/a;1", f"{X} write /w/a;1", "/w/a;1 read [12]"]
        self.assertEqual(from_log(log).events(), written)
