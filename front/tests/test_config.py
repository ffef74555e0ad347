"""Tests how `alertmanager.yml` is read: by its schema, with the lines of its paths."""
from __future__ import annotations

import json
import unittest

from front.config.yaml_config import BadConfiguration, read_config

WORKING = b"""\
global:
  resolve_timeout: 5m
  smtp_auth_password: secret
templates: [a.tmpl]
route: &top
  receiver: on
  group_by: []
  group_wait: 30s
  gruop_wait: 30s
  routes:
    - match: {code: 500, day: 2024-01-01, none: , y: yes}
      receiver: 007
      continue: yes
receivers:
  - name: on
    telegram_configs: [{bot_token: secret}, {send_resolved: off}]
    wechat_configs: [&wechat {api_secret: secret}]
    webhook_configs: [{url: 'http://x', <<: *wechat}]
  - name: 007
time_intervals:
  - name: hours
    time_intervals:
      - times: [{start_time: 09:00, end_time: 17:00}]
        days_of_month: [1, '2:5']
"""
HOSTILE = {
    b"[": "did not find expected node content",
    b"[" * 100_000: "more than 200 levels",
    b"a: &a [*a]": "no anchor a above",
    b"a: 1\na: 2": "line 2: the key a is repeated",
    b"a: \xff": "not UTF-8, at byte 4",
    b"": "the file is empty",
    b"text": "its top isn't an object",
    b"? [1]\n: 2": "a key that isn't a text",
    b"--- {}\n--- {}": "a second document",
    b"a: \x00": "control characters",
    b"".join(
        b"k%d: &k%d [%s]\n" % (i, i, b",".join([b"*k%d" % (i - 1) if i else b"x"] * 10)) for i in range(9)
    ): "more than 500000 values",
}


class Config(unittest.TestCase):
    def test_texts_are_texts(self) -> None:
        route = read_config(WORKING).value["route"]
        self.assertEqual(route["receiver"], "on")
        self.assertEqual(route["routes"][0]["match"], {"code": "500", "day": "2024-01-01", "none": "", "y": "yes"})
        self.assertEqual(route["routes"][0]["receiver"], "007")
        self.assertIs(route["routes"][0]["continue"], True)

    def test_an_empty_group_by_is_absent_as_in_alertmanager(self) -> None:
        self.assertNotIn("group_by", read_config(WORKING).value["route"])

    def test_times_and_days_are_texts(self) -> None:
        member = read_config(WORKING).value["time_intervals"][0]["time_intervals"][0]
        self.assertEqual(
            member, {"times": [{"start_time": "09:00", "end_time": "17:00"}], "days_of_month": ["1", "2:5"]}
        )

    def test_integrations_keep_send_resolved_alone(self) -> None:
        reading = read_config(WORKING)
        self.assertEqual(
            reading.value["receivers"][0]["telegram_configs"], [{"send_resolved": True}, {"send_resolved": False}]
        )
        self.assertEqual(reading.value["receivers"][0]["wechat_configs"], [{"send_resolved": False}])
        self.assertEqual(reading.value["receivers"][0]["webhook_configs"], [{}])
        self.assertNotIn(b"secret", reading.as_json())

    def test_paths_have_lines(self) -> None:
        reading = read_config(WORKING)
        self.assertEqual(reading.line_of("route.routes[0].match.code"), 11)
        self.assertEqual(reading.line_of("receivers[1].webhook_configs"), 19)
        self.assertEqual(reading.line_of(""), 1)
        self.assertEqual([(each.path, each.line) for each in reading.unread], [("route.gruop_wait", 9)])
        self.assertIn("group_wait", reading.unread[0].known)

    def test_json_is_kept_as_it_is(self) -> None:
        text = b'{\n\t"route": {"receiver": 5, "extra": "\\ud83d"},\n\t"receivers": []}'
        reading = read_config(text)
        self.assertEqual(reading.as_json(), text)
        self.assertEqual(reading.value, json.loads(text))
        reading = read_config(read_config(WORKING).as_json())
        self.assertEqual(reading.value, read_config(WORKING).value)
        self.assertEqual(reading.line_of("route.receiver"), 6)

    def test_hostile_files_end_with_their_reason(self) -> None:
        for data, reason in HOSTILE.items():
            with self.subTest(data[:20]), self.assertRaisesRegex(BadConfiguration, reason):
                read_config(data)


if __name__ == "__main__":
    unittest.main()
