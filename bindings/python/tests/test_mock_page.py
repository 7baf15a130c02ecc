"""The mock server's page in a real browser. Skipped where there is none."""

import unittest

from browsing import HAS_BROWSER, By, InBrowser, Keys
from mock_serving import DATA, serving

WRONG = "{ books { id\n  nope } }"


@unittest.skipUnless(HAS_BROWSER, "there is no Selenium, or no Chromium with its driver")
class Page(InBrowser):
    def setUp(self):
        self.context = serving(DATA)
        self.server = self.context.__enter__()
        self.addCleanup(self.context.__exit__, None, None, None)

    def open(self, scheme="light", path=""):
        """The page in a browser that ends with the test."""
        self.open_page(f"http://127.0.0.1:{self.server.port}/{path}", scheme)
        self.wait(lambda: self.at("schema").text)

    def ask(self, query):
        """Types a query and runs it by the keyboard."""
        self.replace("query", query)
        self.at("query").send_keys(Keys.CONTROL, Keys.ENTER)
        self.wait(lambda: " ms" in self.at("status").text)

    def test_a_query_is_answered(self):
        self.open()
        self.ask("{ books { id title author { name } } }")
        self.assertIn('"title": "B"', self.at("response").text)
        self.assertIn("200", self.at("status").text)
        self.assertEqual((self.console(), self.page.find_elements(By.CSS_SELECTOR, "#errors li")), ([], []))
        self.picture("page-light.png")

    def test_an_error_is_marked_at_its_place(self):
        self.open("dark")
        self.ask(WRONG)
        self.assertEqual(self.marks(), ["nope"])
        self.page.find_element(By.CSS_SELECTOR, "#errors button").click()
        selected = self.page.execute_script("const q = document.getElementById('query'); return q.value.slice(q.selectionStart, q.selectionEnd)")
        self.assertEqual(selected, "nope")
        self.assertEqual(self.console(), [])
        self.picture("page-dark.png")

    def test_a_fault_is_marked_before_the_query_is_run(self):
        self.open()
        if not self.script("return document.getElementById('engine').textContent.trim()"):
            self.skipTest("the page was made without the engine")
        self.replace("query", "{ count nope")
        self.at("query").send_keys(" }")
        self.wait(lambda: self.marks() == ["nope"])
        self.assertEqual(self.at("response").text, "")
        self.server.schema.write_text("type Query { count: Int nope: Int }", encoding="utf-8")
        self.script("dispatchEvent(new Event('focus'))")
        self.wait(lambda: self.marks() == [])

    def test_names_are_suggested_from_the_schema_of_the_server(self):
        self.open()
        self.replace("query", "{ books { ti")
        self.wait(lambda: self.at("suggestions").text.split() == ["title", "String"])
        self.at("query").send_keys(Keys.ENTER, " } }")
        self.assertEqual(self.at("query").get_attribute("value"), "{ books { title } }")

    def test_headers_go_with_a_query(self):
        self.open()
        self.script("window.sent = []; const real = fetch; window.fetch = (to, how) => { sent.push(how?.headers); return real(to, how); }")
        self.page.find_element(By.CSS_SELECTOR, "details.remote summary").click()
        self.replace("headers", '{ "X-Who": "me" }')
        self.ask("{ count }")
        self.assertEqual(self.script("return sent.find((it) => it)['X-Who']"), "me")
        self.replace("headers", '{ "X-Who" }')
        self.at("headers").send_keys(Keys.CONTROL, Keys.ENTER)
        self.wait(lambda: "a colon is missing here" in self.at("status").text)

    def test_introspection_may_be_off(self):
        with serving(DATA, "--no-introspection") as other:
            self.open_page(f"http://127.0.0.1:{other.port}/")
            self.wait(lambda: self.at("schema").text == "Introspection is off.")
            self.ask("{ count nope }")
            self.assertEqual(self.marks(), ["nope"])
            self.assertEqual(self.console(), [])

    def test_screen_readers_have_names(self):
        self.open()
        self.page.find_element(By.CSS_SELECTOR, "details.remote summary").click()
        self.assertEqual(self.unnamed(), [])

    def test_both_colour_schemes(self):
        colours = set()
        for scheme in ("light", "dark"):
            self.open(scheme)
            colours.add(self.page.execute_script("return getComputedStyle(document.querySelector('section')).backgroundColor"))
            self.at("theme").click()
            colours.add(self.page.execute_script("return getComputedStyle(document.querySelector('section')).backgroundColor"))
        self.assertEqual(len(colours), 2)

    def test_a_type_is_found_in_the_schema(self):
        self.open()
        self.page.switch_to.active_element.send_keys(Keys.CONTROL, "k")
        self.page.switch_to.active_element.send_keys("born")
        self.wait(lambda: [box.get_attribute("data-type") for box in self.page.find_elements(By.CSS_SELECTOR, "#schema details")] == ["Author"])
        self.assertIn("born: Date", self.at("schema").text)
        self.page.find_element(By.XPATH, "//code/button[text()='Date']").click()
        self.wait(lambda: self.page.switch_to.active_element.text.startswith("Date"))

    def test_the_keyboard_suffices(self):
        self.open()
        reached = set()
        for _ in range(12):
            reached.add(self.page.switch_to.active_element.get_attribute("id"))
            self.page.switch_to.active_element.send_keys(Keys.TAB)
        self.assertLessEqual({"query", "variables", "response", "search"}, reached)

    def test_variables_and_history(self):
        self.open(path="?query=query(%24i%3A%20ID)%20%7B%20book(id%3A%20%24i)%20%7B%20title%20%7D%20%7D&variables=%7B%22i%22%3A%222%22%7D")
        self.wait(lambda: '"title": "B"' in self.at("response").text)
        self.page.get(f"http://127.0.0.1:{self.server.port}/")
        self.wait(lambda: len(self.page.find_elements(By.CSS_SELECTOR, "#history option")) == 2)
        self.page.find_elements(By.CSS_SELECTOR, "#history option")[1].click()
        self.assertEqual(self.at("variables").get_attribute("value"), '{"i":"2"}')

    def test_a_wrong_schema_is_told(self):
        self.open()
        self.server.schema.write_text("type Query { a: Nope }", encoding="utf-8")
        self.ask("{ count }")
        self.wait(lambda: "Nope" in self.at("fault").text)
        self.assertIn('"count": 1', self.at("response").text)


if __name__ == "__main__":
    unittest.main()
