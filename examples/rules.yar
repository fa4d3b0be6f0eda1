// Rules for examples/run. The bytes of this file are counted in rules.expected.
import "pe"
import "math"
include "other.yar"

/* a rule with all that the outline tells */
private global rule mills : grain stone
{
    meta:
        author = "examples" version = 2 score = -0.5 tested = true
    strings:
        $text = "a \"quoted\" word" wide nocase
        $name = /mill(s|ed)? [0-9a-f]{2,8}/is fullword
        $head = { 4D 5A [2-4] ?? ( 50 45 | 4E ( 45 | ?5 [1] ~00 ) ) [-] C3 }
        $code = { E8 // a call, and back
                  [4] C? } private
        $key = "secret" xor(0x01-0xff) ascii
        $data = "more" base64("./0123456789ABCDEFGHIJKLMNOPQRSTUVWXYZabcdefghijklmnopqrstuvwxyz")
    condition:
        for all i in (1..#text) : ( @text[i] < 10KB ) and $head at pe.entry_point or any of ($c*, $k*)
}

rule empty { condition: math.entropy(0, filesize) >= 7.5 }
