'use strict';
/** The rules: one for each category of reports, named as the React Compiler's rules for ESLint are. */
const {analysis, wantAll, UNSUPPORTED, INCOMPATIBLE} = require('./analysis.js');

/** @type {Record<string, {category: string, description: string, isRecommended: boolean}>} */
const RULES = {
  immutability: {category: 'Immutability', isRecommended: true,
    description: 'disallow writes of props, state, context, hook arguments and results, and of what JSX or an effect already has'},
  globals: {category: 'Globals', isRecommended: true, description: 'disallow assignments to variables of the outside during render'},
  purity: {category: 'Purity', isRecommended: true, description: 'disallow calls of impure functions during render'},
  'incompatible-library': {category: INCOMPATIBLE, isRecommended: true, description: 'tell of calls whose results can\'t be memoized'},
  'report-unsupported': {category: UNSUPPORTED, isRecommended: false, description: 'tell of functions that aren\'t analysed, and why'},
};

/** A rule of ESLint. @param {{category: string, description: string, isRecommended: boolean}} about */
function ruleOf({category, description, isRecommended}) {
  return {
    meta: {type: 'problem', docs: {description, category: 'Possible Errors', recommended: isRecommended}, schema: []},
    /** @param {any} context */
    create(context) {
      const sourceCode = context.sourceCode || context.getSourceCode();
      if (category === UNSUPPORTED) wantAll(sourceCode);
      return {
        Program() {
          for (const {category: own, message, loc} of analysis(sourceCode)) {
            // ESLint would take braces of a message for places to fill.
            if (own === category) context.report({loc: loc.end ? loc : loc.start, message: '{{message}}', data: {message}});
          }
        },
      };
    },
  };
}

const rules = Object.fromEntries(Object.entries(RULES).map(([name, about]) => [name, ruleOf(about)]));
const recommended = Object.keys(RULES).filter(name => RULES[name].isRecommended);

module.exports = {rules, recommended};
