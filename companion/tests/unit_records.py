"""Answers as records and as HTML."""
import unittest

from evacask.model.records import Records, html_of


class RecordsOfAnswers(unittest.TestCase):
    def test_html(self) -> None:
        self.assertEqual(html_of([]), "<table><tr></tr></table>")
        said = html_of([{"a<": None, "b": [1, 2]}, {"a<": "<script>", "b": ()}])
        self.assertEqual(
            said, "<table><tr><th>a&lt;</th><th>b</th></tr><tr><td></td><td>1 2</td></tr><tr><td>&lt;script&gt;</td><td></td></tr></table>"
        )

    def test_an_answer_without_records(self) -> None:
        with self.assertRaises(NotImplementedError):
            Records()._repr_html_()


if __name__ == "__main__":
    unittest.main()
