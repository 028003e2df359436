: > plan.org
