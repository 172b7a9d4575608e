package karzhoul.jpa.query;

/** How a statement is answered. */
sealed interface Plan permits SelectPlan, ChangePlan {}
