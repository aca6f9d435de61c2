"""Best schedules: the words of a tree that are visited within a budget (docs/definitions.md,
"Words", "Search" and "Best schedules")."""

import re

from . import schedules, shops
from .words import Fault

BUDGET = re.compile(r"[1-9][0-9]{0,5}")


class Spent(Exception):
    """The budget is spent, and there is a word to visit."""


class ProjectTree:
    """The words of a project."""

    def __init__(self, project):
        self.project, self.tails = project, schedules.tails(project)
        self.least = max([max(self.tails.values()), *map(self.busy, range(self.resources()))])

    def resources(self):
        return len(self.project.capacities)

    def busy(self, k):
        """How long a resource is busy at least."""
        project, capacity = self.project, self.project.capacities[k]
        work = sum(project.durations[j] * project.needs[j][k] for j in project.durations)
        return -(-work // capacity) if capacity else 0

    def letters(self, word):
        return schedules.eligible(self.project, word)

    def is_full(self, word):
        return len(word) == len(self.project.durations)

    def bound(self, word):
        starts = schedules.serial(self.project, word)
        return max([self.least, *(start + self.tails[j] for j, start in starts.items())])

    def starts(self, word):
        return schedules.serial(self.project, word)

    def makespan(self, starts):
        return schedules.makespan(self.project, starts)


class ShopTree:
    """The words of a shop."""

    def __init__(self, shop):
        self.shop = shop

    def letters(self, word):
        return shops.Placed(self.shop, word).letters()

    def is_full(self, word):
        return len(word) == self.shop.size

    def bound(self, word):
        return shops.Placed(self.shop, word).bound()

    def starts(self, word):
        return shops.Placed(self.shop, word).starts

    def makespan(self, starts):
        return shops.makespan(self.shop, starts)


class Search:
    """What is found of a tree from initial starts, and how many words were visited."""

    def __init__(self, tree, initial, budget):
        self.tree, self.budget, self.visited, self.kind = tree, budget, 0, "optimal"
        self.starts, self.least = initial, tree.makespan(initial)

    def visit(self, word):
        """Visits a word, and what follows it while its bound is below the least."""
        if self.visited == self.budget:
            raise Spent
        self.visited += 1
        if self.tree.is_full(word):
            self.take(self.tree.starts(word))
        elif self.tree.bound(word) < self.least:
            for letter in self.tree.letters(word):
                self.visit([*word, letter])

    def take(self, starts):
        makespan = self.tree.makespan(starts)
        if makespan < self.least:
            self.starts, self.least = starts, makespan


def search(tree, initial, budget):
    """What is found, beginning with the empty word."""
    found = Search(tree, initial, budget)
    try:
        found.visit([])
    except Spent:
        found.kind = "budget"
    return found


def budget_of(text):
    if not BUDGET.fullmatch(text) or int(text) > 200000:
        raise Fault("S6 budget")
    return int(text)


def best_of_project(project, text):
    """The best schedule of a project whose needs fit."""
    if len(project.durations) > 40:
        raise Fault("S5 too large")
    budget = budget_of(text)
    return search(ProjectTree(project), schedules.rule_starts(project, "lft"), budget)


def best_of_shop(shop, text):
    """The best schedule of a shop."""
    if shop.size > 100:
        raise Fault("S5 too large")
    budget = budget_of(text)
    return search(ShopTree(shop), shops.rule_starts(shop, "mwkr"), budget)
