#!/usr/bin/env python3
"""separator_beside.py ORIGINAL [OURS]: 2,000 reports in ten scripts through the original (a program `peer_job` over it,
bench/README.md) and through ours, `job`, with words by Unicode, and why they differ where they do.

A reason explains a report where both programs print the same once what the reason speaks of is taken out of the text
(REASONS), spaces at the ends of rows apart; the fewest that do are counted. What is left is printed, and the exit
status is 0 only where nothing is."""
import collections
import itertools
import json
import os
import random
import re
import subprocess
import sys
from unicodedata import category, east_asian_width

TOP = os.path.dirname(os.path.dirname(os.path.dirname(os.path.abspath(__file__))))
EACH = 200
SHOWN = 20

LATIN = "a file could not be opened because its name isn't known here, or it's been moved; try again: état über naïve"
CODE = "settings.toml main.rs --wrap -x foo_bar() Vec<u8> a/b.c [0] {x} x=1; C++ f(x,0) port=8080 ./run well-known #1"
# the words of each script, and what stands between and around them
SCRIPTS = {
    "Chinese": ("设置 文件 找不到 端口 号码 请 检查 网络 连接 是否 正常 错误 在 第 三 行 「引号」 （括号） 《书名》 80%",
                ["", "", "", "，", "。", "、", "：", "！", "？", " "]),
    "Japanese": ("設定 ファイル が 見つかり ません ポート 番号 です 「名前」 （例） ください っと しゃ ー を 々 パス ﾊﾟｽ ￥100",
                 ["", "", "", "、", "。", "・", "！", " ", "…"]),
    "Thai": ("ไม่พบ ไฟล์ การตั้งค่า ที่ กำหนด กรุณา ตรวจสอบ อีกครั้ง ๑๒๓ ฯ ๆ เครือข่าย ผิดพลาด",
             ["", "", " ", " ", "(", ")"]),
    "Korean": ("설정 파일을 찾을 수 없습니다 포트 번호 를 확인하세요 각 한 가 오류 「인용」 (괄호) 10% 1,000원", [" ", " ", "", ". ", ", "]),
    "Hebrew": ("קובץ ההגדרות לא נמצא בדוק את שם הקובץ שוב צה״ל בית־ספר אב-גד ש״ח 50", [" ", " ", "-", ", ", ". ", "/"]),
    "Arabic": ("لم يتم العثور على ملف الإعدادات تحقق من الاسم ثم أعد المحاولة ١٢٣ ٪٥ مَدْرَسَة",
               [" ", " ", "، ", "؟ ", ". ", "/"]),
    "URLs": ("https://example.org/a/b-c?d=e&f=g#h http://x.y:8080/ ftp://host/~u/%20x mailto:a@b.c "
             "C:\\dir\\f.txt see at and",
             [" ", " ", ", ", " (", ") "]),
    "prices": ("$1,000.50 €99 99% -5 +7 £3.99 ¥100 $(12) 1.5e-3 (20%) 7/8 N° 12:30 ±1 10°C 1-2 a-1 and for",
               [" ", " ", "/", ", ", "-"]),
    "Latin": (LATIN + " " + CODE, [" ", " ", " ", "  ", "-", " — ", "… ", "!", "? "]),
}
MARKED = " 👍🏽 🇩🇪🇫🇷 漢\u0301 e\u0301 a\u00a0b x\u00b7y \u00b7z 1\u00b72 \u0e34\u0e48 \u0e38 foo\u00adbar"
SCRIPTS["mixed"] = (" ".join(words for words, _ in SCRIPTS.values()) + MARKED,
                    ["", " ", " ", "-", "、", "「", "」", " (", ") ", "\u200b"])


def text_of(dice, script):
    """A text of some words, sometimes of two lines."""
    words, between = SCRIPTS[script]
    words = words.split(" ")
    text = "".join(dice.choice(words) + dice.choice(between) for _ in range(dice.randint(2, 24)))
    return text if dice.random() < 0.8 else text + "\n" + dice.choice(words) + dice.choice(["-", "", "!"])


def is_wide(char):
    return east_asian_width(char) in "FWH"


def in_ascii(found):
    """A hyphen where it stands between letters and digits of ASCII, else nothing."""
    before, after = found.string[found.start() - 1], found.string[found.end()]
    return "-" if (before + after).isascii() else ""


# What each reason speaks of, and what is left without it. Columns: what `unicode-width` 0.1.10 counts otherwise.
REASONS = {
    "the end of a line": lambda text: re.sub(r"[-\u00ad]+(?=\n|$)", "", text),
    "hyphens": lambda text: re.sub(r"(?<=[^\W_])-(?=[^\W_])", in_ascii, text),
    "brackets": lambda text: "".join(c for c in text if not (is_wide(c) and category(c) in ("Ps", "Pe"))),
    "marks": lambda text: "".join(c for c in text if not ("\u0e00" <= c <= "\u0eff" and category(c) in ("Mn", "Mc"))),
    "classes": lambda text: text.replace("\u00b7", ""),
    "columns": lambda text: re.sub("[\u00ad\U0001f300-\U0001faff]", "", text),
}
SPACES = "spaces at the end of a row"


def printed(program, report, width):
    words = [program, "--graphical", "--theme", "unicode_nocolor", "--separator", "unicode", "--width", str(width)]
    ran = subprocess.run(words, input=json.dumps(report).encode(), capture_output=True, check=True)
    return ran.stdout.decode()


def bare(shown):
    """Without the spaces at the end of each row."""
    return re.sub(" +$", "", shown, flags=re.M)


def reason_of(report, width):
    """Why both differ: the fewest reasons without which they don't."""
    if len({bare(printed(it, report, width)) for it in PROGRAMS}) == 1:
        return SPACES
    for count in range(1, len(REASONS) + 1):
        for names in itertools.combinations(REASONS, count):
            left = report
            for name in names:
                left = {key: REASONS[name](text) for key, text in left.items()}
            if left != report and len({bare(printed(it, left, width)) for it in PROGRAMS}) == 1:
                return ", ".join(names)
    return None


def main():
    found, left = collections.defaultdict(collections.Counter), []
    for script in SCRIPTS:
        for number in range(EACH):
            dice = random.Random(f"{script} {number}")
            report = {"message": text_of(dice, script), "help": text_of(dice, script)}
            width = dice.choice([16, 20, 27, 40, 60, 80])
            one, other = (printed(it, report, width) for it in PROGRAMS)
            reason = "alike" if one == other else reason_of(report, width)
            found[reason][script] += 1
            if reason is None:
                left.append((width, report))
    for reason, counts in found.items():
        print(f"{sum(counts.values()):5} {reason}: {dict(counts)}")
    for width, report in left[:SHOWN]:
        print(width, json.dumps(report, ensure_ascii=False))
        for it in PROGRAMS:
            print(printed(it, report, width), end="")
    return 1 if left else 0


if __name__ == "__main__":
    if not 2 <= len(sys.argv) <= 3:
        sys.exit(__doc__)
    PROGRAMS = (sys.argv[1], (sys.argv[2:] or [os.path.join(TOP, "crates/job/out/job")])[0])
    sys.exit(main())
