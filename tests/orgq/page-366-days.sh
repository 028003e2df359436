printf '* Walk <2024-02-28 Wed +1d>\n' > plan.org
