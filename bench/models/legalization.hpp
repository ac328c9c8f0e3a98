// A legal placement that is changed cell by cell: `search` finds the place at which the sum of all displacements grows
// least if the cells beside it make room, and `put` takes it. A few changes can be taken back together.
#pragma once

#include <climits>
#include <cmath>

#include "design.hpp"

// A cell in a run of one row. A fixed one, of several rows, is never pushed.
struct Item {
    int site, width, cell;
    bool is_fixed;
};

struct FilledRun {
    int row;
    Run run;
    int used = 0;
    std::vector<Item> items;     // from left to right
};

// A place for a cell, and what the displacements grow by.
struct Spot {
    long cost;
    int row = -1, site = 0;
    int aim = 0;                 // the site whose gap is taken, in each of the cell's rows
    size_t run = 0, gap = 0;     // of a cell of one row
};

// Greater than any cost.
const long NO_COST = LONG_MAX / 4;

class Legalization {
public:
    const Design& design;
    std::vector<int> site, row;            // of each cell
    double far = 0;                        // displacement beyond this number of row heights counts `far_weight` times
    long far_weight = 1;
    int gaps = 1, most_pushed = 10;        // gaps that are tried on each side of the nearest one; cells pushed on a side

    explicit Legalization(const Design& given) : design(given), site(given.cells.size()), row(given.cells.size()) {
        for (size_t number = 0; number < design.rows.size(); number++) {
            first.push_back(filled.size());
            for (const Run& run : design.runs[1][number]) filled.push_back({int(number), run, 0, {}});
        }
        first.push_back(filled.size());
        touched.assign(filled.size(), 0);
        for (const Cell& cell : design.cells) {
            long width = design.site_width, whole = cell.target_x / width - (cell.target_x % width < 0);
            below.push_back(int(whole));
            rest.push_back(int(cell.target_x - whole * width));
        }
    }

    // Puts each cell at the place with which it begins.
    void begin_at_given_places() {
        for (size_t cell = 0; cell < design.cells.size(); cell++) set(cell, design.cells[cell].row, design.cells[cell].site);
    }

    long displacement(int cell) const { return along_x(cell, site[cell]) + along_y(cell, row[cell]); }
    long cost(int cell) const { return weighted(displacement(cell)); }
    long total() const {
        long sum = 0;
        for (size_t cell = 0; cell < design.cells.size(); cell++) sum += displacement(cell);
        return sum;
    }

    // The best place of a cell that is not placed, if one costs less than the limit; else its row is -1.
    Spot search(int cell, long limit = NO_COST) {
        Spot best;
        best.cost = limit;
        long target = design.cells[cell].target_y;
        int up = row_from(target), down = up - 1, count = int(design.rows.size());
        for (;;) {
            long above = up < count ? design.rows[up].bottom - target : NO_COST;
            long under = down >= 0 ? target - design.rows[down].bottom : NO_COST;
            if (std::min(above, under) == NO_COST || weighted(std::min(above, under)) >= best.cost) return best;
            search_row(cell, under <= above ? down-- : up++, best);
        }
    }

    // Places a cell at a spot that was found since the last change.
    void put(int cell, const Spot& spot) {
        const Cell& moved = design.cells[cell];
        for (int up = 0; up < moved.height; up++) {
            FilledRun& run = filled[moved.height == 1 ? spot.run : run_at(moved.team, spot.row + up, spot.site)];
            size_t gap = moved.height == 1 ? spot.gap : gap_near(run, spot.aim, moved.width);
            touch(run);
            push_left(run, gap, spot.site);
            push_right(run, gap, spot.site + moved.width);
            insert(run, gap, {spot.site, moved.width, cell, moved.height > 1});
        }
        site[cell] = spot.site;
        row[cell] = spot.row;
    }

    // Takes a placed cell out.
    void take(int cell) {
        const Cell& taken = design.cells[cell];
        if (taken.height > 1) moved_tall.push_back({cell, site[cell], row[cell]});
        for (int up = 0; up < taken.height; up++) {
            FilledRun& run = filled[run_at(taken.team, row[cell] + up, site[cell])];
            touch(run);
            run.items.erase(run.items.begin() + first_from(run, site[cell]));
            run.used -= taken.width;
        }
    }

    // Begins changes that `take_back` undoes together.
    void begin_changes() {
        round++;
        kept_count = 0;
        moved_tall.clear();
    }

    // Undoes all changes since they began. Cells that were taken must have been put back, or were placed before.
    void take_back() {
        for (size_t number = 0; number < kept_count; number++) {
            FilledRun& run = filled[kept[number].run];
            run.items.assign(kept[number].items.begin(), kept[number].items.end());
            run.used = kept[number].used;
            for (const Item& item : run.items)
                if (!item.is_fixed) {
                    site[item.cell] = item.site;
                    row[item.cell] = run.row;
                }
        }
        for (size_t number = moved_tall.size(); number-- > 0;) {
            site[moved_tall[number].cell] = moved_tall[number].site;
            row[moved_tall[number].cell] = moved_tall[number].row;
        }
        begin_changes();
    }

    // Calls `use` with each cell of a team that begins or reaches into sites `low` to `high - 1` of a row.
    template <class Use> void for_cells(int team, int row, int low, int high, Use use) const {
        for (size_t number = first[row]; number < first[row + 1]; number++) {
            const FilledRun& run = filled[number];
            if (run.run.team != team || run.run.high <= low || run.run.low >= high) continue;
            for (size_t at = first_from(run, low); at < run.items.size() && run.items[at].site < high; at++) use(run.items[at].cell);
        }
    }

    // Whether the placement is legal: each cell is in a run of its team, and no site is taken twice.
    bool is_legal() const {
        std::vector<char> taken(design.rows.size() * size_t(design.sites));
        for (size_t number = 0; number < design.cells.size(); number++) {
            const Cell& cell = design.cells[number];
            auto [begin, end] = design.runs_of(cell, row[number]);
            int low = site[number], high = low + cell.width;
            if (!design.fits(cell, row[number])) return false;
            if (std::none_of(begin, end, [&](const Run& run) { return run.low <= low && high <= run.high; })) return false;
            for (int up = 0; up < cell.height; up++)
                for (int at = low; at < high; at++) {
                    char& is_taken = taken[size_t(row[number] + up) * design.sites + at];
                    if (is_taken) return false;
                    is_taken = 1;
                }
        }
        return true;
    }

    // The number of the first row whose bottom is at this height or above.
    int row_from(long height) const {
        auto found = std::lower_bound(design.rows.begin(), design.rows.end(), height,
                                      [](const Row& row, long value) { return row.bottom < value; });
        return int(found - design.rows.begin());
    }

    // The site below the target of each cell, and the distance from it to the target.
    std::vector<int> below, rest;

private:
    // A cell that is pushed if the new cell's site is beyond a limit: to the left if that is less than `site + distance`,
    // to the right if it is greater than `site - distance`.
    struct Pushed {
        int distance, site, cell;
        bool is_left;
    };
    // A change of the slope of a cost, in database units a site.
    struct Kink {
        int site;
        long change;
    };
    struct Kept {
        size_t run;
        int used;
        std::vector<Item> items;
    };
    struct Tall {
        int cell, site, row;
    };
    std::vector<FilledRun> filled;         // by row, team and site
    std::vector<size_t> first;             // the first run of each row
    std::vector<Pushed> pushed;
    std::vector<Kink> kinks;
    std::vector<unsigned> touched;         // the last round in which each run was changed
    unsigned round = 0;
    std::vector<Kept> kept;
    size_t kept_count = 0;
    std::vector<Tall> moved_tall;

    long along_x(int cell, int x) const { return std::labs(x * design.site_width - design.cells[cell].target_x); }
    long along_y(int cell, int number) const { return std::labs(design.rows[number].bottom - design.cells[cell].target_y); }
    long far_limit() const { return long(far * design.row_height); }
    long weighted(long way) const { return far > 0 ? way + (far_weight - 1) * std::max(0l, way - far_limit()) : way; }

    size_t run_at(int team, int number, int x) const {
        auto is_before = [](const FilledRun& filled, std::pair<int, int> key) {
            return filled.run.team != key.first ? filled.run.team < key.first : filled.run.high <= key.second;
        };
        auto begin = filled.begin() + first[number], end = filled.begin() + first[number + 1];
        return std::lower_bound(begin, end, std::pair(team, x), is_before) - filled.begin();
    }
    static size_t first_from(const FilledRun& run, int x) {
        auto is_before = [](const Item& item, int x) { return item.site < x; };
        return std::lower_bound(run.items.begin(), run.items.end(), x, is_before) - run.items.begin();
    }
    // The gap in front of the first cell whose middle is right of the middle of the new cell.
    static size_t gap_near(const FilledRun& run, int x, int width) {
        auto is_before = [](const Item& item, long middle) { return 2l * item.site + item.width < middle; };
        return std::lower_bound(run.items.begin(), run.items.end(), 2l * x + width, is_before) - run.items.begin();
    }

    // The distance of a cell grows by this much from site `x` to the next one. At its target it is exact: the target may
    // be between two sites.
    long slope_right(int cell, int x) const {
        long width = design.site_width;
        return x < below[cell] ? -width : x == below[cell] ? width - 2 * rest[cell] : width;
    }
    long slope_left(int cell, int x) const { return slope_right(cell, x - 1); }

    // Finds the cells that a new cell of this width in a gap may push, and narrows the sites that it may take.
    void collect(const FilledRun& run, size_t gap, int width, int reach_low, int reach_high, int& low, int& high) {
        low = std::max(low, reach_low);
        high = std::min(high, reach_high);
        int distance = 0;
        for (size_t at = gap;; at--) {
            if (at == 0) {
                low = std::max(low, run.run.low + distance);
                break;
            }
            const Item& item = run.items[at - 1];
            int limit = item.site + item.width + distance;
            if (item.is_fixed || (limit > reach_low && int(gap - at) >= most_pushed)) low = std::max(low, limit);
            if (item.is_fixed || limit <= reach_low || int(gap - at) >= most_pushed) break;
            distance += item.width;
            pushed.push_back({distance, item.site, item.cell, true});
        }
        distance = width;
        for (size_t at = gap;; at++) {
            if (at == run.items.size()) {
                high = std::min(high, run.run.high - distance);
                break;
            }
            const Item& item = run.items[at];
            int limit = item.site - distance;
            if (item.is_fixed || (limit < reach_high && int(at - gap) >= most_pushed)) high = std::min(high, limit);
            if (item.is_fixed || limit >= reach_high || int(at - gap) >= most_pushed) break;
            pushed.push_back({distance, item.site, item.cell, false});
            distance += item.width;
        }
    }

    // The least sum of costs over the sites `low` to `high` of the new cell, whose row is `along_y` away. It is a convex
    // function of the site: each cell adds its slope at `low` and its kinks to the right of it.
    long least(int cell, long along_y, int low, int high, int& best_site) {
        kinks.clear();
        long width = design.site_width, value = along_x(cell, low), slope = slope_right(cell, low);
        if (low < below[cell]) kinks.push_back({below[cell], 2 * (width - rest[cell])});
        if (low < below[cell] + 1) kinks.push_back({below[cell] + 1, 2l * rest[cell]});
        if (far > 0) {
            long near = std::max(0l, far_limit() - along_y), extra = (far_weight - 1) * width;
            int reach = int(near / width);
            value += (far_weight - 1) * std::max(0l, value - near);
            if (low < below[cell] - reach) {
                slope -= extra;
                kinks.push_back({below[cell] - reach, extra});
            }
            if (low < below[cell] + 1 + reach) kinks.push_back({below[cell] + 1 + reach, extra});
            else slope += extra;
        }
        for (const Pushed& other : pushed) add_pushed(other, low, value, slope);
        std::sort(kinks.begin(), kinks.end(), [](const Kink& one, const Kink& other) { return one.site < other.site; });
        long best = value;
        int at = best_site = low;
        for (const Kink& kink : kinks) {
            if (kink.site > high) break;
            value += slope * (kink.site - at);
            at = kink.site;
            slope += kink.change;
            if (value < best) best = value, best_site = at;
        }
        value += slope * (high - at);
        if (value < best) best = value, best_site = high;
        return best;
    }

    // Adds what a pushed cell's distance grows by.
    void add_pushed(const Pushed& other, int low, long& value, long& slope) {
        int cell = other.cell, target = below[cell];
        long width = design.site_width, at_target = 2 * (width - rest[cell]), after_target = 2l * rest[cell];
        if (other.is_left) {
            int limit = other.site + other.distance, from = low - other.distance;
            if (low >= limit) return;
            value += along_x(cell, from) - along_x(cell, other.site);
            slope += slope_right(cell, from);
            if (from < target && target < other.site) kinks.push_back({target + other.distance, at_target});
            if (from < target + 1 && target + 1 < other.site) kinks.push_back({target + 1 + other.distance, after_target});
            kinks.push_back({limit, -slope_left(cell, other.site)});
            return;
        }
        int limit = other.site - other.distance, from = other.site;
        if (low < limit) kinks.push_back({limit, slope_right(cell, other.site)});
        else {
            from = low + other.distance;
            value += along_x(cell, from) - along_x(cell, other.site);
            slope += slope_right(cell, from);
        }
        if (from < target) kinks.push_back({target - other.distance, at_target});
        if (from < target + 1) kinks.push_back({target + 1 - other.distance, after_target});
    }

    // Looks for a better place in a row, from the run that is nearest to the target outwards.
    void search_row(int cell, int number, Spot& best) {
        const Cell& sought = design.cells[cell];
        if (!design.fits(sought, number)) return;
        long way = along_y(cell, number), cost = weighted(way), width = design.site_width;
        int target = below[cell] + (2 * rest[cell] > width);
        auto [begin, end] = design.runs_of(sought, number);
        const Run* near = std::upper_bound(begin, end, target, [](int x, const Run& run) { return x < run.high; });
        for (const Run* run = near; run < end && cost + (run->low - target - 1) * width < best.cost; run++)
            search_run(cell, number, *run, target, way, best);
        for (const Run* run = near; run > begin && cost + (target - run[-1].high - 1) * width < best.cost; run--)
            search_run(cell, number, run[-1], target, way, best);
    }

    void search_run(int cell, int number, const Run& run, int target, long way, Spot& best) {
        const Cell& sought = design.cells[cell];
        int width = sought.width;
        if (run.high - run.low < width) return;
        int aim = std::min(std::max(target, run.low), run.high - width);
        long cost = weighted(way);
        if (cost + along_x(cell, aim) >= best.cost) return;
        long reach = std::min((best.cost - cost) / design.site_width + 1, 100'000'000l);
        int reach_low = int(target - reach), reach_high = int(target + reach);
        if (sought.height == 1) {
            size_t at = run_at(sought.team, number, run.low);
            const FilledRun& inside = filled[at];
            if (run.high - run.low - inside.used < width) return;
            auto try_gap = [&](size_t gap) {
                int low = run.low, high = run.high - width, x;
                pushed.clear();
                collect(inside, gap, width, reach_low, reach_high, low, high);
                if (low > high) return;
                long sum = cost + least(cell, way, low, high, x);
                if (sum < best.cost) best = {sum, number, x, x, at, gap};
            };
            size_t gap = gap_near(inside, aim, width), count = inside.items.size();
            try_gap(gap);
            for (size_t off = 1; off <= count && (int(off) <= gaps || best.cost == NO_COST); off++) {
                if (gap >= off) try_gap(gap - off);
                if (gap + off <= count) try_gap(gap + off);
            }
            return;
        }
        auto try_site = [&](int aim) {
            int low = run.low, high = run.high - width, x;
            pushed.clear();
            for (int up = 0; up < sought.height; up++) {
                const FilledRun& inside = filled[run_at(sought.team, number + up, run.low)];
                collect(inside, gap_near(inside, aim, width), width, reach_low, reach_high, low, high);
            }
            if (low > high) return;
            long sum = cost + least(cell, way, low, high, x);
            if (sum < best.cost) best = {sum, number, x, aim};
        };
        try_site(aim);
        int step = std::max(2, width / 2);
        for (int off = 1; off <= 2 * gaps || (best.cost == NO_COST && off * step < run.high - run.low); off++)
            for (int other : {aim - off * step, aim + off * step})
                if (other >= run.low && other + width <= run.high && cost + along_x(cell, other) < best.cost) try_site(other);
    }

    // Moves the cells left of a gap so that none reaches beyond a site.
    void push_left(FilledRun& run, size_t gap, int edge) {
        for (size_t at = gap; at-- > 0;) {
            Item& item = run.items[at];
            if (item.site + item.width <= edge) return;
            site[item.cell] = item.site = edge = edge - item.width;
        }
    }
    void push_right(FilledRun& run, size_t gap, int edge) {
        for (size_t at = gap; at < run.items.size() && run.items[at].site < edge; at++) {
            site[run.items[at].cell] = run.items[at].site = edge;
            edge += run.items[at].width;
        }
    }
    static void insert(FilledRun& run, size_t at, const Item& item) {
        run.items.insert(run.items.begin() + at, item);
        run.used += item.width;
    }
    void set(int cell, int number, int x) {
        const Cell& placed = design.cells[cell];
        for (int up = 0; up < placed.height; up++) {
            FilledRun& run = filled[run_at(placed.team, number + up, x)];
            insert(run, first_from(run, x), {x, placed.width, cell, placed.height > 1});
        }
        site[cell] = x;
        row[cell] = number;
    }
    // Keeps what a run holds, before its first change of a round.
    void touch(FilledRun& run) {
        size_t number = &run - filled.data();
        if (touched[number] == round) return;
        touched[number] = round;
        if (kept_count == kept.size()) kept.emplace_back();
        Kept& copy = kept[kept_count++];
        copy.run = number;
        copy.used = run.used;
        copy.items.assign(run.items.begin(), run.items.end());
    }
};
