// A design as `bench/model.py` writes it: the ground of the teams in sites and rows, and the cells.
//
// Sites are counted from the left edge of all rows, rows from the lowest one upwards. Lengths are database units.
#pragma once

#include <algorithm>
#include <cstdlib>
#include <iostream>
#include <vector>

// Sites `low` to `high - 1` of a row (of the lowest of several rows) that belong to a team and hold no obstacle.
struct Run {
    int team, low, high;
};

struct Cell {
    int team, width, height;     // sites and rows
    int rail;                    // the only rows that it fits have this rail; -1: it fits all rows
    long target_x, target_y;     // where the cell was; x from the left edge of all rows
    int site, row;               // a legal place, with which a search begins; -1 if there is none
};

struct Row {
    long bottom;
    int rail;
};

// The tallest cells, in rows.
const int TALLEST = 8;

struct Design {
    long site_width, row_height;
    int sites;                                           // from the left edge of all rows to their right edge
    std::vector<Row> rows;
    std::vector<std::vector<Run>> runs[TALLEST + 1];     // by height of a cell, by its lowest row; sorted by team and site
    std::vector<Cell> cells;

    explicit Design(std::istream& input) {
        size_t row_count, run_count, cell_count;
        input >> site_width >> row_height >> sites >> row_count >> run_count >> cell_count;
        rows.resize(row_count);
        for (Row& row : rows) input >> row.bottom >> row.rail;
        runs[1].resize(row_count);
        for (; run_count > 0; run_count--) {
            int row;
            Run run;
            input >> row >> run.team >> run.low >> run.high;
            runs[1][row].push_back(run);
        }
        cells.resize(cell_count);
        for (Cell& cell : cells)
            input >> cell.team >> cell.width >> cell.height >> cell.rail >> cell.target_x >> cell.target_y >> cell.site >> cell.row;
        if (!input) {
            std::cerr << "the design is cut off\n";
            exit(2);
        }
        for (int height = 2; height <= TALLEST; height++) add_runs(height);
    }

    // The runs in which a cell may begin in a row, from left to right.
    std::pair<const Run*, const Run*> runs_of(const Cell& cell, int row) const {
        const std::vector<Run>& all = runs[cell.height][row];
        const Run* end = all.data() + all.size();
        auto first = std::lower_bound(all.data(), end, cell.team, [](const Run& run, int team) { return run.team < team; });
        auto last = std::upper_bound(first, end, cell.team, [](int team, const Run& run) { return team < run.team; });
        return {first, last};
    }

    bool fits(const Cell& cell, int row) const { return cell.rail < 0 || cell.rail == rows[row].rail; }

private:
    // Intersects the runs of `height - 1` rows with those of the row above, if that is next to them.
    void add_runs(int height) {
        runs[height].resize(rows.size());
        for (size_t row = 0; row + height <= rows.size(); row++) {
            if (rows[row + height - 1].bottom != rows[row].bottom + (height - 1) * row_height) continue;
            const std::vector<Run>&below = runs[height - 1][row], &above = runs[1][row + height - 1];
            for (size_t i = 0, j = 0; i < below.size() && j < above.size();) {
                const Run &one = below[i], &other = above[j];
                if (one.team != other.team) {
                    one.team < other.team ? i++ : j++;
                    continue;
                }
                Run both{one.team, std::max(one.low, other.low), std::min(one.high, other.high)};
                if (both.low < both.high) runs[height][row].push_back(both);
                one.high < other.high ? i++ : j++;
            }
        }
    }
};

// A generator of numbers that look random: the same on each run.
struct Scramble {
    unsigned long state;

    unsigned long next() {
        state ^= state << 13;
        state ^= state >> 7;
        state ^= state << 17;
        return state;
    }
    int below(int limit) { return int((next() >> 33) % limit); }
    double unit() { return double(next() >> 11) / 9007199254740992.0; }
};
