'''
Dial pulses of a rotary telephone: each digit with its speed, its share of break, its drift, its bounces and its verdict,
as mfbench tells them of the same recording. docs/BENCH.md says what each figure is.
'''

from .pd import Decoder
