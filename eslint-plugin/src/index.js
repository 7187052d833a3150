'use strict';
/** The plugin: its rules, and configurations for both forms of ESLint's. */
const {rules, recommended} = require('./rules.js');
const {name, version} = require('../package.json');

const levels = Object.fromEntries(recommended.map(rule => [`jirrambeo/${rule}`, 'error']));

/** @type {{meta: {name: string, version: string}, rules: object, configs: Record<string, any>}} */
const plugin = {meta: {name, version}, rules, configs: {}};
plugin.configs.recommended = {plugins: ['jirrambeo'], rules: levels}; // .eslintrc
plugin.configs['flat/recommended'] = {name: 'jirrambeo/recommended', plugins: {jirrambeo: plugin}, rules: levels}; // eslint.config.js

module.exports = plugin;
