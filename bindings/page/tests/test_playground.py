"""The playground in a real browser, from its file. Skipped where there is none."""

import pathlib
import unittest

from browsing import HAS_BROWSER, By, InBrowser, Keys

FILE = pathlib.Path(__file__).resolve().parents[2] / "out" / "playground.html"
ANSWER = '{\n  "data": {\n    "book": {\n      "title": "Emma",\n      "year": 1815\n    }\n  }\n}'
MENDED = "query ($title: String!) { book(title: $title) { title } }"


@unittest.skipUnless(HAS_BROWSER, "there is no Selenium, or no Chromium with its driver")
class Playground(InBrowser):
    def open(self, scheme="light", end=""):
        self.open_page(FILE.as_uri() + end, scheme)

    def tearDown(self):
        self.assertEqual(self.console(), [])

    def value(self, name):
        return self.at(name).get_attribute("value")

    def choose(self, number):
        """Begins with an example."""
        self.script("const it = document.getElementById('example'); it.value = arguments[0]; it.onchange()", number)

    def test_it_begins_with_an_answer(self):
        self.open()
        self.wait(lambda: self.at("response").text == ANSWER)
        self.assertIn("right", self.at("status").text)
        self.assertEqual(self.at("cost").text, "4 nodes")
        self.assertEqual(self.unnamed(), [])
        self.picture("playground-light.png")

    def test_a_fault_is_marked_as_it_is_typed_and_goes_when_it_is_mended(self):
        self.open()
        self.replace("query", "query ($title: String!) { book(title: $title) { titel")
        self.at("query").send_keys(Keys.ESCAPE, " } }")
        self.wait(lambda: self.marks() == ["titel"])
        self.assertIn("type `Book` does not have a field `titel`", self.at("errors").text)
        self.assertEqual(self.at("query").get_attribute("aria-invalid"), "true")
        self.page.find_element(By.CSS_SELECTOR, "#errors button").click()
        self.assertEqual(self.script("const q = document.activeElement; return q.value.slice(q.selectionStart, q.selectionEnd)"), "titel")
        self.assertIn("does not have a field", self.at("query-hint").text)
        self.at("query").send_keys("title")
        self.wait(lambda: self.marks() == [])
        self.assertEqual(self.value("query"), MENDED)
        self.wait(lambda: '"title": "Emma"' in self.at("response").text)

    def test_each_text_has_its_faults(self):
        self.open()
        for name, text, wrong, message in (
            ("schema-text", "type Query { a: Nope }", "Nope", "cannot find type"),
            ("data", '{ "a": 1.5 }', "1.5", "numbers are whole"),
            ("variables", '{ "a" 1 }', "1", "a colon is missing"),
        ):
            kept = self.value(name)
            self.replace(name, text)
            self.wait(lambda wrong=wrong: self.marks() == [wrong])
            self.assertIn(message, self.at("errors").text)
            self.replace(name, kept)
            self.wait(lambda: self.marks() == [])
        self.replace("variables", "{}")
        self.wait(lambda: "missing value for non-null variable 'title'" in self.at("errors").text)

    def test_names_are_suggested(self):
        self.open()
        self.replace("query", "query ($title: String!) { b")
        self.wait(lambda: self.at("suggestions").is_displayed())
        self.assertEqual(self.at("query").get_attribute("aria-activedescendant"), "suggestion-0")
        self.at("query").send_keys(Keys.TAB, "(t")
        self.wait(lambda: "title" in self.at("suggestions").text)
        self.at("query").send_keys(Keys.ENTER, ": $")
        self.wait(lambda: self.at("suggestions").text.split() == ["title", "String!"])
        self.at("query").send_keys(Keys.ENTER, ") { ")
        self.at("query").send_keys(Keys.CONTROL, " ")
        self.wait(lambda: self.at("suggestions").text.split("\n")[::2] == ["title", "year", "__typename"])
        self.picture("playground-completion.png")
        self.at("query").send_keys(Keys.DOWN, Keys.ENTER, " } }")
        self.assertEqual(self.value("query"), "query ($title: String!) { book(title: $title) { year } }")
        self.wait(lambda: '"year": 1815' in self.at("response").text)

    def test_the_address_has_all_of_it(self):
        self.open()
        before = self.page.current_url
        self.replace("schema-text", 'type Query { a: String b: Int }')
        self.replace("query", "query One { first: a } query Two { b }")
        self.at("query").send_keys(Keys.HOME)
        self.replace("variables", "")
        self.replace("data", '{ "a": "ä\U0001f600" }')
        self.wait(lambda: '"first": "ä\U0001f600"' in self.at("response").text)
        self.at("share").click()
        self.wait(lambda: "address" in self.at("status").text and self.page.current_url != before)
        address, response = self.page.current_url, self.at("response").text
        self.page.get("about:blank")
        self.go(address)
        self.wait(lambda: self.at("response").text == response)
        self.assertEqual(self.value("schema-text"), "type Query { a: String b: Int }")
        self.page.get("about:blank")
        self.go(FILE.as_uri() + "#nothing-that-was-made-here")
        self.wait(lambda: self.at("response").text == ANSWER)

    def test_the_operation_at_the_caret_is_run(self):
        self.open()
        self.choose(4)
        self.wait(lambda: self.at("operation").is_displayed())
        self.at("query").send_keys(Keys.CONTROL, Keys.HOME)
        self.wait(lambda: '"find"' in self.at("response").text)
        self.at("query").send_keys(Keys.CONTROL, Keys.END)
        self.at("query").send_keys(Keys.UP)
        self.wait(lambda: '"add"' in self.at("response").text)
        self.assertEqual(self.value("operation"), "Add")

    def test_sample_data_answer_the_query(self):
        self.open()
        for number in (1, 2, 3, 4):
            self.choose(number)
            self.replace("data", "{}")
            self.at("sample").click()
            self.wait(lambda: len(self.value("data")) > 10)
            self.wait(lambda: "right" in self.at("status").text)
        self.choose(3)
        self.at("sample").click()
        self.wait(lambda: '"people": 1' in self.at("response").text)

    def test_every_example_is_right(self):
        self.open()
        for number, option in enumerate(self.page.find_elements(By.CSS_SELECTOR, "#example option")):
            self.choose(number)
            count = 3 if "Errors" in option.text else 0
            self.wait(lambda count=count: len(self.page.find_elements(By.CSS_SELECTOR, "#errors li")) == count and '"data"' in self.at("response").text)

    def test_layout_and_undo(self):
        self.open()
        self.replace("query", "query($title:String!){book(title:$title){title,year}}")
        self.at("query").send_keys(Keys.CONTROL, Keys.SHIFT, "f")
        self.assertEqual(self.value("query"), "query ($title: String!) {\n  book(title: $title) {\n    title\n    year\n  }\n}\n")
        self.assertEqual(self.value("variables"), '{\n  "title": "Emma"\n}')
        self.at("query").send_keys(Keys.CONTROL, "z")
        self.assertEqual(self.value("query"), "query($title:String!){book(title:$title){title,year}}")

    def test_hover_shows_the_description(self):
        self.open()
        self.choose(1)
        self.replace("query", "{ books { year")
        self.at("query").send_keys(Keys.ESCAPE, " } }")
        self.wait(lambda: '"year": 1871' in self.at("response").text)
        place = self.script("const r = [...document.querySelectorAll('#ask-pane .field')].find((it) => it.textContent === 'year').getBoundingClientRect(); return [r.x + 3, r.y + 3]")
        self.page.execute_cdp_cmd("Input.dispatchMouseEvent", {"type": "mouseMoved", "x": place[0], "y": place[1]})
        self.wait(lambda: self.at("tip").text == "Book.year: Int\nWhen it was first printed.")

    def test_brackets_and_lines(self):
        self.open()
        self.replace("query", "{ book(title: $title) {")
        self.at("query").send_keys(Keys.ENTER, "year", Keys.ENTER, "}", Keys.ENTER, "}")
        self.assertEqual(self.value("query"), "{ book(title: $title) {\n  year\n}\n}")
        self.assertEqual(len(self.page.find_elements(By.CSS_SELECTOR, "#ask-pane .pair")), 2)

    def test_the_keyboard_suffices(self):
        self.open()
        reached = []
        for _ in range(24):
            reached.append(self.page.switch_to.active_element.get_attribute("id"))
            self.page.switch_to.active_element.send_keys(Keys.TAB)
        wanted = {"run", "format", "example", "items", "share", "theme", "text-tab", "schema-text", "query", "variables", "data", "sample", "response"}
        self.assertLessEqual(wanted, set(reached))
        self.at("text-tab").send_keys(Keys.ARROW_RIGHT)
        self.assertTrue(self.at("schema").is_displayed())
        self.page.switch_to.active_element.send_keys(Keys.CONTROL, "k")
        self.page.switch_to.active_element.send_keys("year")
        self.wait(lambda: "year: Int" in self.at("schema").text)

    def test_narrow_and_wide_in_both_colour_schemes(self):
        colours = set()
        for scheme in ("light", "dark"):
            self.open(scheme)
            self.choose(1)
            self.wait(lambda: "right" in self.at("status").text)
            colours.add(self.script("return getComputedStyle(document.querySelector('section')).backgroundColor"))
            for pixels in (400, 1400):
                self.width(pixels, 1700 if pixels == 400 else 800)
                self.assertLessEqual(self.script("return document.documentElement.scrollWidth"), pixels)
                heights = self.script("return [...document.querySelectorAll('.editor')].filter((it) => it.offsetParent).map((it) => it.offsetHeight)")
                self.assertGreater(min(heights), 60)
                self.picture(f"playground-{scheme}-{pixels}.png")
            self.assertEqual(self.console(), [])
        self.assertEqual(len(colours), 2)


if __name__ == "__main__":
    unittest.main()
