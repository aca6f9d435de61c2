"""What is worked out from a project or a shop: one answer for each page, with the refusals in
their order (docs/errors.md, "Requested results")."""

from . import schedules, searches, shops, texts


class ProjectPages:
    """The pages of a project against its capacities."""

    def __init__(self, project):
        self.project = project

    def check(self):
        schedules.check_needs(self.project)

    def starts(self, rule):
        self.check()
        schedules.check_rule(rule)
        return schedules.rule_starts(self.project, rule)

    def schedule(self, rule):
        return texts.page(*texts.project_lines(self.project, self.starts(rule)))

    def chart(self, rule):
        return texts.project_chart(self.project, self.starts(rule))

    def days(self, starts, calendar):
        return texts.project_days(self.project, starts, calendar)

    def search(self, budget):
        self.check()
        return searches.best_of_project(self.project, budget)

    def best(self, budget):
        found = self.search(budget)
        return texts.best_text(found, texts.project_lines(self.project, found.starts))


class ShopPages:
    """The pages of a shop, of which some machines are closed."""

    def __init__(self, shop, closed=()):
        self.shop, self.closed = shop, closed

    def starts(self, rule):
        shops.check_rule(rule)
        shops.check_open(self.shop, self.closed)
        return shops.rule_starts(self.shop, rule)

    def schedule(self, rule):
        return texts.page(*texts.shop_lines(self.shop, self.starts(rule)))

    def chart(self, rule):
        return texts.shop_chart(self.shop, self.starts(rule))

    def days(self, starts, calendar):
        return texts.shop_days(self.shop, starts, calendar)

    def search(self, budget):
        shops.check_open(self.shop, self.closed)
        return searches.best_of_shop(self.shop, budget)

    def best(self, budget):
        found = self.search(budget)
        return texts.best_text(found, texts.shop_lines(self.shop, found.starts))
