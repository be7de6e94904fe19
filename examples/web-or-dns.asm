l0: ldh [12]
l1: jeq #0x800, l2, l20
l2: ldb [23]
l3: jeq #0x6, l4, l11
l4: ldh [20]
l5: jset #0x1fff, l20, l6
l6: ldxb 4*([14]&0xf)
l7: ldh [x + 14]
l8: jeq #0x50, l19, l9
l9: ldh [x + 16]
l10: jeq #0x50, l19, l20
l11: jeq #0x11, l12, l20
l12: ldh [20]
l13: jset #0x1fff, l20, l14
l14: ldxb 4*([14]&0xf)
l15: ldh [x + 14]
l16: jeq #0x35, l19, l17
l17: ldh [x + 16]
l18: jeq #0x35, l19, l20
l19: ret #262144
l20: ret #0
