printf '* Note\n* TODO Pay\n' > plan.org
