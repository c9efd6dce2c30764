"""Made-up files of constants and tables for tools/try_check, with values at the ends of their ranges and near the limits."""

import itertools

MILLION, LARGEST, STEEPEST = 10 ** 6, 10 ** 9, 10 ** 17
WIDEST, MOST_SPEED, MOST_ANGLE = 10 ** 10, 3600000000, 7200000000
YEARS = [2, 3, 99, 100, 399, 400, 1600, 1899, 1999, 2000, 2023, 2100, 8799, 8800]
COLUMNS = 'name,reference,high_add,low_add,high_times,low_times,high_plus,low_plus'


class Maker:
    def __init__(self, random):
        self.random = random

    def decimal(self, value, places):
        """A decimal with a value, in one of the ways to write it."""
        whole, part = divmod(abs(value), 10 ** places)
        sign = '-' if value < 0 else self.random.choice(['', '', '+'])
        digits = f'{part:0{places}}'.rstrip('0') if self.random.random() < 0.5 else f'{part:0{places}}'
        if whole == 0 and digits and self.random.random() < 0.3:
            return f'{sign}.{digits}'
        return f'{sign}{self.random.choice(["", "", "000"])}{whole}.{digits}'

    def within(self, most):
        """A number of at most a size: an end, 0, or any."""
        pick = self.random
        return pick.choice([0, most, -most, pick.randint(-most, most), pick.randint(-most, most), int(most * pick.random() ** 4)])

    def amplitude(self, kind, speed, count):
        pick, sign = self.random, self.random.choice([1, -1])
        if kind == 'large':
            return sign * (LARGEST // count - pick.choice([0, 1, 2, 1000]))
        if kind == 'steep':
            return sign * min(LARGEST // count, STEEPEST // count // max(1, speed) - pick.choice([0, 1, 2]))
        return {'tiny': pick.randint(-20, 20), 'usual': pick.randint(-5 * MILLION, 5 * MILLION)}.get(kind, self.within(WIDEST) // pick.choice([1, 100, 1000]))

    def speed(self):
        pick = self.random
        return pick.choice([0, MOST_SPEED, pick.randint(0, MOST_SPEED), pick.randint(0, 10 ** 7), pick.randint(1, 32) * 10 ** 7, pick.randint(10 ** 8, 3 * 10 ** 8)])

    def station(self, name, speeds):
        pick, kind = self.random, self.random.choice(['usual', 'usual', 'tiny', 'large', 'steep', 'any'])
        datum = self.within(WIDEST) if kind == 'any' else pick.randint(-3 * MILLION, 9 * MILLION)
        lines = [name, f'{pick.choice(["", "-", "+"])}{pick.randint(0, 15)}:{pick.randint(0, 59):02} :UTC',
                 f'{self.decimal(datum, 6)} {pick.choice(["feet", "meters", "knots", "knots"])}']
        for number, speed in enumerate(speeds):
            constituent = pick.choice(['x', *[f'C{number}'] * 5])
            amplitude, epoch = self.amplitude(kind, speed, len(speeds)), self.within(MOST_ANGLE)
            lines.append(f'{constituent} {self.decimal(amplitude, 6)} {self.decimal(epoch, 7)}')
        return lines

    def constants(self):
        pick = self.random
        speeds, years = [self.speed() for _ in range(pick.choice([1, 1, 2, 3, 6, 40]))], pick.choice([1, 2, 2, 3, 5])
        names = [f'C{number}' for number in range(len(speeds))]
        factor = lambda: abs(self.within(10 * MILLION)) if pick.random() < 0.02 else pick.choice([MILLION, MILLION, pick.randint(900000, MILLION)])
        row = lambda value, places: ' '.join(self.decimal(value(), places) for _ in range(years))
        lines = [str(len(speeds)), *(f'{name} {self.decimal(speed, 7)}' for name, speed in zip(names, speeds)), str(pick.choice(YEARS)), str(years)]
        lines += itertools.chain.from_iterable((name, row(lambda: self.within(MOST_ANGLE), 7)) for name in names)
        lines += ['*END*', str(years), *itertools.chain.from_iterable((name, row(factor, 6)) for name in names), '*END*']
        for number in range(3):
            lines += self.station(f'S{number}', speeds)
        return '\n'.join([*lines, '']).encode()

    def row(self, number, has_slack):
        pick = self.random
        add = lambda: f'{pick.choice(["", "-", "+"])}{pick.choice([0, 0, 1, 5, 23])}:{pick.randint(0, 59):02}' if pick.random() < 0.95 else '-24:00'
        times = lambda: pick.choice(['', '1', '0.000001', '100', self.decimal(pick.randint(1, 2 * MILLION), 6)])
        plus = lambda: pick.choice(['', '0', '-10000', '10000', self.decimal(pick.randint(-3 * MILLION, 3 * MILLION), 6)])
        high, is_equal = [add(), times(), plus()], pick.random() < 0.5
        low = high if is_equal else [add(), times(), plus()]
        pairs = itertools.chain.from_iterable(zip(high, low))
        slack = pick.choice([['', ''], [add(), add()]]) if has_slack else []
        return ','.join([f'T{number}', f'S{pick.randint(0, 2)}', *pairs, *slack])

    def table(self):
        has_slack = self.random.random() < 0.5
        header = f'{COLUMNS},flood_add,ebb_add' if has_slack else COLUMNS
        return '\n'.join([header, *(self.row(number, has_slack) for number in range(6)), '']).encode()
