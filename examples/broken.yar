import pe
rule first { strings: $a = { 4D [2-x] 5A } $b = "lost" condition: $a }
rule second : { condition: true }
rule third { meta: a = b strings: $a = { ( 01 | 02 } condition: $a }
rule fourth { strings: $a = "never closed
    condition: $a }
stray words }
import "found"
private rule { condition: true }
global private rule fifth { strings: $a = { 01 [3] 02 } xor(1 condition: $a }
rule sixth { }
rule seventh { condition: true
rule eighth { condition: $
