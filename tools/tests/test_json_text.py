"""Tests of how JSON is read."""
import unittest

import json_text


class Json(unittest.TestCase):
    def test_what_is_read(self):
        rows = [
            (b' {"a" : [ 1 , -2, 0.5, 1e3 ] ,\r\n\t"b":null} ', {'a': [1, -2, 0.5, 1000.0], 'b': None}),
            (b'{"a":1,"\\u0061":2}', {'a': 2}),
            (b'"\\ud83d\\ude00 \\\\ud800 \xc3\xa9\\/"', '\U0001f600 \\ud800 \xe9/'),
            (b'18446744073709551615', (1 << 64) - 1),
            (b'[' * 127 + b']' * 127, None),
            (b'"' + b'[' * 200 + b'\\"[' + b'"', '[' * 200 + '"['),
            (b'1' + b'0' * 308, 1e308),
            (b'1e-400', 0.0),
        ]
        for content, value in rows:
            read = json_text.read(content)
            self.assertTrue(value is None or read == value and type(read) is type(value), content)

    def test_what_is_none(self):
        rows = [
            b'', b'{', b'{} {}', b'{"a":1,}', b'[1,]', b"{'a':1}", b'01', b'+1', b'.5', b'1.', b'NaN', b'Infinity', b'-Infinity', b'true1',
            b'\xef\xbb\xbf{}', b'"\xff"', b'"\xed\xa0\x80"', b'"\n"', b'"\\x"', b'"\\ud800"', b'"\\udc00"', b'"\\udc00\\ud800"',
            b'"\\ud800\\u0041"', b'{"\\ud800":1}', b'{"a":"\\ud800","a":1}', b'[' * 128 + b']' * 128, b'{"a":' * 128 + b'1' + b'}' * 128,
            b'[' * 100000 + b']' * 100000, b'1e400', b'-1e400', b'1' + b'0' * 309, b'1' + b'0' * 9999, b'\x00', b'\x0b{}', b'\xc2\xa0{}',
        ]
        for content in rows:
            with self.assertRaises(ValueError, msg=content):
                json_text.read(content)

    def test_whole_numbers_have_one_spelling(self):
        for digits in (b'0', b'1', b'18446744073709551615'):
            self.assertTrue(json_text.is_whole(json_text.read(digits)), digits)
        for digits in (b'-0', b'-1', b'1.0', b'1e3', b'0e0', b'18446744073709551616', b'100000000000000000000', b'"1"', b'true', b'null'):
            self.assertFalse(json_text.is_whole(json_text.read(digits)), digits)

    def test_an_object_has_a_limit(self):
        self.assertEqual(json_text.read_object(b'{} ', 3), {})
        for content in (b'{}  ', b'[]', b'{', b'1'):
            self.assertIsNone(json_text.read_object(content, 3), content)


if __name__ == '__main__':
    unittest.main()
