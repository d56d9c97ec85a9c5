"""Document 01's "Numbers to meet", by hand: each call and the answer that document 01 gives. record.py stops if the Rust or refusals.py says another."""

NUMBERS = [
    ('1. the scale of a qp', [
        ('scale 63', '0 value 58368'), ('scale 51', '0 value 14592'), ('scale 64', '2 QP')]),
    ('2. a coefficient', [
        ('dquant 0 0 45 0 1 1 -1', '0 done | -23'), ('dquant 0 0 40 0 0 1 32767', '0 done | 32767')]),
    ('3. stage one, size 2, two lines', [
        ('itxb0 1 1 4 1 2 3 4 4*0', '0 done | 256 -128 384 -128')]),
    ('4. stage one, size 4, one line', [
        ('itxb0 2 0 4 0 1 0 0 4*0', '0 done | 84 35 -35 -84')]),
    ('5. stage two, size 2, one line', [
        ('itxb1 1 0 7 2 -3 0 2*5', '0 done | -1 -1'), ('itxb1 1 0 7 2 -1 0 2*5', '0 done | 0 0'),
            ('itxb1 1 0 0 2 2147483647 0 2*5', '0 done | 32767 32767')]),
    ('6. a job of 2 by 2', [
        ('job 0 1 1 4 32 6 12 4 4 3*0', '0 done | 4 4 4 4')]),
    ('7. SATD, all differences 1', [
        ('satd 8 8 8 0 0 8 8 8 64*1 64*0', '0 value 4'), ('satd 4 4 4 0 0 4 4 8 16*1 16*0', '0 value 2'),
            ('satd 2 2 2 0 0 2 2 8 4*1 4*0', '0 value 1'), ('satd 8 4 8 0 0 8 4 8 32*1 32*0', '0 value 4')]),
    ('8. SATD, one difference of 1 at the corner', [
        ('satd 8 8 8 0 0 8 8 8 64 1 63*0 64*0', '0 value 16'), ('satd 4 4 4 0 0 4 4 8 16 1 15*0 16*0', '0 value 8'),
            ('satd 2 2 2 0 0 2 2 8 4 1 3*0 4*0', '0 value 3')]),
    ('9. depth 10, 2 by 2, all differences 3, then 4', [
        ('ssd_16b 2 2 2 0 0 1 1 10 4*3 4*0', '0 value 0'), ('ssd_16i 2 2 2 2 2 2 0 0 1 1 10 4*3 4*0', '0 value 0'),
        ('sad_16b 2 2 2 0 0 2 2 2 0 0 2 2 10 4*3 4*0', '0 value 3'), ('sad_bi_16b 2 2 2 0 0 2 2 10 4*3 4*0', '0 value 3'),
            ('sad_16i 2 2 2 0 0 2 2 10 4*3 4*0', '0 value 3'), ('sad_bi_16i 2 2 10 4*3 4*0', '0 value 3'),
        ('ssd_16b 2 2 2 0 0 1 1 10 4*4 4*0', '0 value 4'), ('ssd_16i 2 2 2 2 2 2 0 0 1 1 10 4*4 4*0', '0 value 4')]),
    ('10. a job that ends at the last sample, and one that ends a sample later; the lowest bi-prediction value, and the next one', [
        ('job 2 1 1 4 32 6 12 6 9 9 4 3*0', '0 done | 9 9 4 4 4 4'), ('job 3 1 1 4 32 6 12 6 9 9 9 4 0 0', '5 AREA | 9 9 9 4 0 0'),
        ('sad_bi_16i 1 1 8 1 -16384 1 0', '0 value 16384'), ('sad_bi_16i 1 1 8 1 -16385 1 0', '7 SAMPLE'),
        ('sad_bi_16b 1 1 1 0 0 1 1 8 1 -16384 1 0', '0 value 16384'), ('sad_bi_16b 1 1 1 0 0 1 1 8 1 -16385 1 0', '7 SAMPLE')]),
]
