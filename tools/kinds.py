"""The table of kinds: the one source of the table in `es_base` and of the typed layer in `es_tree`.

Read by `tree.py`. A row says, for one kind of node: its name, the module of its struct, the number of a scope, symbol or
reference that it bears, what it is (the doc comment), and its members in preorder. A member is (name in ESTree, field of
the struct, sort). A sort is
    child(place) nullable(place) key(place) list_of(place) non_empty_list(place) list_with_holes(place)
    NAME NULLABLE_STRING BOOLEAN LITERAL RAW COOKED TYPE word(set)
    FALSE (a boolean that is false and has no field), only(set) (a word that is the only one, no field).
A place names the kinds that stand there.
"""

E, S, P, T = 'Expression', 'Statement', 'Pattern', 'AssignmentTarget'


def child(place): return ('Child', place)
def nullable(place): return ('Nullable', place)
def key(place): return ('Key', place)
def list_of(place): return ('List', place)
def non_empty_list(place): return ('NonEmptyList', place)
def list_with_holes(place): return ('ListWithHoles', place)
def word(words): return ('Word', words)
def only(words): return ('Only', words)


NAME, NULLABLE_STRING, BOOLEAN, FALSE = ('Name',), ('NullableString',), ('Boolean',), ('False',)
LITERAL, RAW, COOKED, TYPE = ('Literal',), ('Raw',), ('Cooked',), ('Type',)

# sets of words: (doc of the enum, its variants with their strings)
WORDS = {
    'SourceType': ('What a program is: a script or a module (ESTree, `sourceType`).',
                   [('Script', 'script'), ('Module', 'module')]),
    'VariableDeclarationKind': ('The keyword of a variable declaration (ECMA-262, 14.3).',
                                [('Var', 'var'), ('Let', 'let'), ('Const', 'const')]),
    'MethodDefinitionKind': ('What a method of a class is (ECMA-262, 15.4 and 15.7).',
                             [('Constructor', 'constructor'), ('Method', 'method'), ('Get', 'get'), ('Set', 'set')]),
    'PropertyKind': ('What a property of an object literal is (ECMA-262, 13.2.5).',
                     [('Init', 'init'), ('Get', 'get'), ('Set', 'set')]),
    'UnaryOperator': ('The operators of ECMA-262, 13.5.',
                      [('Minus', '-'), ('Plus', '+'), ('Not', '!'), ('BitNot', '~'), ('Typeof', 'typeof'), ('Void', 'void'), ('Delete', 'delete')]),
    'UpdateOperator': ('The operators of ECMA-262, 13.4.',
                       [('Increment', '++'), ('Decrement', '--')]),
    'BinaryOperator': ('The operators of ECMA-262, 13.6 to 13.12.',
                       [('Equality', '=='), ('Inequality', '!='), ('StrictEquality', '==='), ('StrictInequality', '!=='),
                        ('LessThan', '<'), ('LessEqualThan', '<='), ('GreaterThan', '>'), ('GreaterEqualThan', '>='),
                        ('ShiftLeft', '<<'), ('ShiftRight', '>>'), ('ShiftRightZeroFill', '>>>'),
                        ('Addition', '+'), ('Subtraction', '-'), ('Multiplication', '*'), ('Division', '/'),
                        ('Remainder', '%'), ('Exponential', '**'), ('BitwiseOr', '|'), ('BitwiseXor', '^'),
                        ('BitwiseAnd', '&'), ('In', 'in'), ('Instanceof', 'instanceof')]),
    'LogicalOperator': ('The operators of ECMA-262, 13.13.',
                        [('Or', '||'), ('And', '&&'), ('Coalesce', '??')]),
    'AssignmentOperator': ('The operators of ECMA-262, 13.15.',
                           [('Assign', '='), ('Addition', '+='), ('Subtraction', '-='), ('Multiplication', '*='),
                            ('Division', '/='), ('Remainder', '%='), ('Exponential', '**='), ('ShiftLeft', '<<='),
                            ('ShiftRight', '>>='), ('ShiftRightZeroFill', '>>>='), ('BitwiseOr', '|='), ('BitwiseXor', '^='),
                            ('BitwiseAnd', '&='), ('LogicalOr', '||='), ('LogicalAnd', '&&='), ('LogicalNullish', '??=')]),
}
# words that no enum has, since only one is possible
FIXED_WORDS = {
    'In': ['in'],
    'Init': ['init'],
}

SCOPE, SYMBOL, REFERENCE = ('scope_id', 'ScopeId'), ('symbol_id', 'SymbolId'), ('reference_id', 'ReferenceId')

# row: (module, kinds, number that it bears, doc, members)
ROWS = {
    'Program': ('program', ['Program'], SCOPE, 'A script or a module (ECMA-262, 16).',
                [('sourceType', 'source_type', word('SourceType')), ('body', 'body', list_of(S))]),
    # statements
    'ExpressionStatement': ('statement', ['ExpressionStatement'], None, '`expression;`, with the raw string of a directive (ECMA-262, 14.5 and 11.2.1).',
                            [('expression', 'expression', child(E)), ('directive', 'directive', NULLABLE_STRING)]),
    'BlockStatement': ('statement', ['BlockStatement'], SCOPE, '`{ body }`, a block or the body of a function (ECMA-262, 14.2).',
                       [('body', 'body', list_of(S))]),
    'EmptyStatement': ('statement', ['EmptyStatement'], None, '`;` (ECMA-262, 14.4).', []),
    'DebuggerStatement': ('statement', ['DebuggerStatement'], None, '`debugger;` (ECMA-262, 14.16).', []),
    'WithStatement': ('statement', ['WithStatement'], None, '`with (object) body` (ECMA-262, 14.11).',
                      [('object', 'object', child(E)), ('body', 'body', child(S))]),
    'ReturnStatement': ('statement', ['ReturnStatement'], None, '`return argument;` (ECMA-262, 14.10).',
                        [('argument', 'argument', nullable(E))]),
    'ThrowStatement': ('statement', ['ThrowStatement'], None, '`throw argument;` (ECMA-262, 14.14).',
                       [('argument', 'argument', child(E))]),
    'LabeledStatement': ('statement', ['LabeledStatement'], None, '`label: body` (ECMA-262, 14.13).',
                         [('label', 'label', child('IdentifierName')), ('body', 'body', child(S))]),
    'BreakStatement': ('statement', ['BreakStatement'], None, '`break label;` (ECMA-262, 14.9).',
                       [('label', 'label', nullable('IdentifierName'))]),
    'ContinueStatement': ('statement', ['ContinueStatement'], None, '`continue label;` (ECMA-262, 14.8).',
                          [('label', 'label', nullable('IdentifierName'))]),
    'IfStatement': ('statement', ['IfStatement'], None, '`if (test) consequent else alternate` (ECMA-262, 14.6).',
                    [('test', 'test', child(E)), ('consequent', 'consequent', child(S)), ('alternate', 'alternate', nullable(S))]),
    'SwitchStatement': ('statement', ['SwitchStatement'], SCOPE, '`switch (discriminant) { cases }` (ECMA-262, 14.12).',
                        [('discriminant', 'discriminant', child(E)), ('cases', 'cases', list_of('SwitchCase'))]),
    'SwitchCase': ('statement', ['SwitchCase'], None, '`case test: consequent`, or `default: consequent` without a test (ECMA-262, 14.12).',
                   [('test', 'test', nullable(E)), ('consequent', 'consequent', list_of(S))]),
    'TryStatement': ('statement', ['TryStatement'], None, '`try block catch .. finally finalizer` (ECMA-262, 14.15).',
                     [('block', 'block', child('Block')), ('handler', 'handler', nullable('CatchClause')), ('finalizer', 'finalizer', nullable('Block'))]),
    'CatchClause': ('statement', ['CatchClause'], SCOPE, '`catch (param) body` (ECMA-262, 14.15).',
                    [('param', 'param', nullable(P)), ('body', 'body', child('Block'))]),
    'WhileStatement': ('statement', ['WhileStatement'], None, '`while (test) body` (ECMA-262, 14.7.3).',
                       [('test', 'test', child(E)), ('body', 'body', child(S))]),
    'DoWhileStatement': ('statement', ['DoWhileStatement'], None, '`do body while (test);` (ECMA-262, 14.7.2).',
                         [('body', 'body', child(S)), ('test', 'test', child(E))]),
    'ForStatement': ('statement', ['ForStatement'], SCOPE, '`for (init; test; update) body` (ECMA-262, 14.7.4).',
                     [('init', 'init', nullable('ForInit')), ('test', 'test', nullable(E)), ('update', 'update', nullable(E)), ('body', 'body', child(S))]),
    'ForInStatement': ('statement', ['ForInStatement'], SCOPE, '`for (left in right) body` (ECMA-262, 14.7.5).',
                       [('left', 'left', child('ForLeft')), ('right', 'right', child(E)), ('body', 'body', child(S))]),
    'ForOfStatement': ('statement', ['ForOfStatement'], SCOPE, '`for (left of right) body` or `for await (left of right) body` (ECMA-262, 14.7.5).',
                       [('left', 'left', child('ForLeft')), ('right', 'right', child(E)), ('body', 'body', child(S)), ('await', 'is_await', BOOLEAN)]),
    'Function': ('function', ['FunctionDeclaration', 'FunctionExpression'], SCOPE,
                 'A function that is no arrow, and the value of a method (ECMA-262, 15.2, 15.4 to 15.6 and 15.8).',
                 [('id', 'id', nullable('BindingIdentifier')), ('params', 'params', list_of('PatternOrRest')), ('body', 'body', child('Block')),
                  ('async', 'is_async', BOOLEAN), ('generator', 'generator', BOOLEAN)]),
    'Arrow': ('function', ['ArrowFunctionExpression'], SCOPE, '`(params) => body` (ECMA-262, 15.3 and 15.9).',
              [('params', 'params', list_of('PatternOrRest')), ('body', 'body', child('ArrowBody')), ('async', 'is_async', BOOLEAN)]),
    'VariableDeclaration': ('statement', ['VariableDeclaration'], None, '`var`, `let` or `const` with its declarators (ECMA-262, 14.3).',
                            [('kind', 'kind', word('VariableDeclarationKind')), ('declarations', 'declarations', list_of('VariableDeclarator'))]),
    'VariableDeclarator': ('statement', ['VariableDeclarator'], None, '`id = init` in a variable declaration (ECMA-262, 14.3).',
                           [('id', 'id', child(P)), ('init', 'init', nullable(E))]),
    # classes
    'Class': ('class', ['ClassDeclaration', 'ClassExpression'], SCOPE, '`class id extends superClass body` (ECMA-262, 15.7).',
              [('id', 'id', nullable('BindingIdentifier')), ('superClass', 'super_class', nullable(E)), ('body', 'body', child('ClassBody'))]),
    'ClassBody': ('class', ['ClassBody'], None, 'The elements of a class, in braces (ECMA-262, 15.7).',
                  [('body', 'body', list_of('ClassElement'))]),
    'MethodDefinition': ('class', ['MethodDefinition'], None, 'A method, an accessor or the constructor of a class (ECMA-262, 15.4 and 15.7).',
                         [('key', 'key', key('ClassKey')), ('value', 'value', child('FunctionValue')), ('kind', 'kind', word('MethodDefinitionKind')),
                          ('computed', 'computed', BOOLEAN), ('static', 'is_static', BOOLEAN)]),
    'PropertyDefinition': ('class', ['PropertyDefinition'], None, 'A field of a class (ECMA-262, 15.7, FieldDefinition).',
                           [('key', 'key', key('ClassKey')), ('value', 'value', nullable(E)), ('computed', 'computed', BOOLEAN), ('static', 'is_static', BOOLEAN)]),
    'StaticBlock': ('class', ['StaticBlock'], SCOPE, '`static { body }` (ECMA-262, 15.7, ClassStaticBlock).',
                    [('body', 'body', list_of(S))]),
    # identifiers and literals
    'PrivateIdentifier': ('identifier', ['PrivateIdentifier'], None, '`#name`, whose string has no `#` (ECMA-262, 12.7).',
                          [('name', 'name', NAME)]),
    'IdentifierReference': ('identifier', ['IdentifierReference'], REFERENCE, 'An identifier that is read or written (ECMA-262, 13.1).',
                            [('name', 'name', NAME)]),
    'BindingIdentifier': ('identifier', ['BindingIdentifier'], SYMBOL, 'An identifier that declares (ECMA-262, 13.1).',
                          [('name', 'name', NAME)]),
    'IdentifierName': ('identifier', ['IdentifierName'], None, 'An identifier that is a mere name, as a label or an uncomputed key (ECMA-262, 12.7).',
                       [('name', 'name', NAME)]),
    'Literal': ('literal', ['Literal'], None, 'A literal (ECMA-262, 12.8 and 13.2.3).',
                [('value', 'value', LITERAL)]),
    # expressions
    'ThisExpression': ('expression', ['ThisExpression'], None, '`this` (ECMA-262, 13.2.1).', []),
    'Super': ('expression', ['Super'], None, '`super`, as an object or a callee (ECMA-262, 13.3.7).', []),
    'ArrayExpression': ('expression', ['ArrayExpression'], None, '`[elements]`, which may have holes (ECMA-262, 13.2.4).',
                        [('elements', 'elements', list_with_holes('ExpressionOrSpread'))]),
    'ObjectExpression': ('expression', ['ObjectExpression'], None, '`{ properties }` (ECMA-262, 13.2.5).',
                         [('properties', 'properties', list_of('ObjectMember'))]),
    'Property': ('expression', ['Property'], None, 'A property, a method or an accessor of an object literal (ECMA-262, 13.2.5).',
                 [('key', 'key', key('PropertyKey')), ('value', 'value', child(E)), ('kind', 'kind', word('PropertyKind')),
                  ('method', 'method', BOOLEAN), ('shorthand', 'shorthand', BOOLEAN), ('computed', 'computed', BOOLEAN)]),
    'SpreadElement': ('expression', ['SpreadElement'], None, '`...argument` in an array, an object or a call (ECMA-262, 13.2.4, 13.2.5 and 13.3.8).',
                      [('argument', 'argument', child(E))]),
    'TemplateLiteral': ('expression', ['TemplateLiteral'], None, 'A template: its strings, and the expressions between them (ECMA-262, 13.2.8).',
                        [('quasis', 'quasis', list_of('TemplateElement')), ('expressions', 'expressions', list_of(E))]),
    'TemplateElement': ('expression', ['TemplateElement'], None, 'A string of a template; `cooked` is absent where an escape is not valid (ECMA-262, 12.8.6).',
                        [('raw', 'raw', RAW), ('cooked', 'cooked', COOKED), ('tail', 'tail', BOOLEAN)]),
    'TaggedTemplateExpression': ('expression', ['TaggedTemplateExpression'], None, '`tag` before a template (ECMA-262, 13.3.11).',
                                 [('tag', 'tag', child(E)), ('quasi', 'quasi', child('TemplateLiteral'))]),
    'MemberExpression': ('expression', ['MemberExpression'], None, '`object.property` or `object[property]` (ECMA-262, 13.3.2 and 13.3.9).',
                         [('object', 'object', child('ExpressionOrSuper')), ('property', 'property', key('MemberProperty')),
                          ('computed', 'computed', BOOLEAN), ('optional', 'optional', BOOLEAN)]),
    'PrivateField': ('expression', ['PrivateField'], None, '`object.#property` (ECMA-262, 13.3.2 and 13.3.9).',
                     [('object', 'object', child('ExpressionOrSuper')), ('property', 'property', child('PrivateIdentifier')),
                      ('computed', None, FALSE), ('optional', 'optional', BOOLEAN)]),
    'UnaryExpression': ('expression', ['UnaryExpression'], None, 'An operator before its operand (ECMA-262, 13.5).',
                        [('operator', 'operator', word('UnaryOperator')), ('argument', 'argument', child(E))]),
    'UpdateExpression': ('expression', ['UpdateExpression'], None, '`++` or `--`, before or after its target (ECMA-262, 13.4).',
                         [('operator', 'operator', word('UpdateOperator')), ('argument', 'argument', child('SimpleAssignmentTarget')), ('prefix', 'prefix', BOOLEAN)]),
    'BinaryExpression': ('expression', ['BinaryExpression'], None, 'An operator between two operands (ECMA-262, 13.6 to 13.12).',
                         [('operator', 'operator', word('BinaryOperator')), ('left', 'left', child(E)), ('right', 'right', child(E))]),
    'PrivateIn': ('expression', ['PrivateIn'], None, '`#left in right` (ECMA-262, 13.10).',
                  [('operator', None, only('In')), ('left', 'left', child('PrivateIdentifier')), ('right', 'right', child(E))]),
    'LogicalExpression': ('expression', ['LogicalExpression'], None, '`||`, `&&` or `??` between two operands (ECMA-262, 13.13).',
                          [('operator', 'operator', word('LogicalOperator')), ('left', 'left', child(E)), ('right', 'right', child(E))]),
    'AssignmentExpression': ('expression', ['AssignmentExpression'], None, '`left = right`, or with another operator (ECMA-262, 13.15).',
                             [('operator', 'operator', word('AssignmentOperator')), ('left', 'left', child(T)), ('right', 'right', child(E))]),
    'ConditionalExpression': ('expression', ['ConditionalExpression'], None, '`test ? consequent : alternate` (ECMA-262, 13.14).',
                              [('test', 'test', child(E)), ('consequent', 'consequent', child(E)), ('alternate', 'alternate', child(E))]),
    'CallExpression': ('expression', ['CallExpression'], None, '`callee(arguments)` (ECMA-262, 13.3.6, 13.3.7 and 13.3.9).',
                       [('callee', 'callee', child('ExpressionOrSuper')), ('arguments', 'arguments', list_of('ExpressionOrSpread')), ('optional', 'optional', BOOLEAN)]),
    'NewExpression': ('expression', ['NewExpression'], None, '`new callee(arguments)` (ECMA-262, 13.3.5).',
                      [('callee', 'callee', child(E)), ('arguments', 'arguments', list_of('ExpressionOrSpread'))]),
    'SequenceExpression': ('expression', ['SequenceExpression'], None, 'Expressions with commas between them; there is at least one (ECMA-262, 13.16).',
                           [('expressions', 'expressions', non_empty_list(E))]),
    'YieldExpression': ('expression', ['YieldExpression'], None, '`yield argument` or `yield* argument` (ECMA-262, 15.5).',
                        [('argument', 'argument', nullable(E)), ('delegate', 'delegate', BOOLEAN)]),
    'AwaitExpression': ('expression', ['AwaitExpression'], None, '`await argument` (ECMA-262, 15.8).',
                        [('argument', 'argument', child(E))]),
    'ImportExpression': ('expression', ['ImportExpression'], None, '`import(source)` (ECMA-262, 13.3.10).',
                         [('source', 'source', child(E))]),
    'MetaProperty': ('expression', ['MetaProperty'], None, '`new.target` or `import.meta` (ECMA-262, 13.3.12).',
                     [('meta', 'meta', child('IdentifierName')), ('property', 'property', child('IdentifierName'))]),
    'ChainExpression': ('expression', ['ChainExpression'], None, 'A chain of members and calls with `?.` in it, whole (ECMA-262, 13.3.9).',
                        [('expression', 'expression', child('ChainElement'))]),
    # patterns that declare
    'ObjectPattern': ('pattern', ['ObjectPattern'], None, '`{ properties }` that declares (ECMA-262, 14.3.3).',
                      [('properties', 'properties', list_of('PatternMember'))]),
    'BindingProperty': ('pattern', ['BindingProperty'], None, '`key: value` in an object pattern that declares (ECMA-262, 14.3.3).',
                        [('key', 'key', key('PropertyKey')), ('value', 'value', child(P)), ('kind', None, only('Init')), ('method', None, FALSE),
                         ('shorthand', 'shorthand', BOOLEAN), ('computed', 'computed', BOOLEAN)]),
    'ArrayPattern': ('pattern', ['ArrayPattern'], None, '`[elements]` that declares (ECMA-262, 14.3.3).',
                     [('elements', 'elements', list_with_holes('PatternOrRest'))]),
    'AssignmentPattern': ('pattern', ['AssignmentPattern'], None, '`left = right` in a pattern that declares: a default value (ECMA-262, 14.3.3).',
                          [('left', 'left', child(P)), ('right', 'right', child(E))]),
    'RestElement': ('pattern', ['RestElement'], None, '`...argument` in a pattern that declares, or the last parameter (ECMA-262, 14.3.3 and 15.1).',
                    [('argument', 'argument', child(P))]),
    # patterns that assign
    'ObjectAssignmentTarget': ('pattern', ['ObjectAssignmentTarget'], None, '`{ properties }` that is assigned to (ECMA-262, 13.15.5).',
                               [('properties', 'properties', list_of('TargetMember'))]),
    'AssignmentTargetProperty': ('pattern', ['AssignmentTargetProperty'], None, '`key: value` in an object pattern that is assigned to (ECMA-262, 13.15.5).',
                                 [('key', 'key', key('PropertyKey')), ('value', 'value', child('AssignmentTargetMaybeDefault')), ('kind', None, only('Init')), ('method', None, FALSE),
                                  ('shorthand', 'shorthand', BOOLEAN), ('computed', 'computed', BOOLEAN)]),
    'ArrayAssignmentTarget': ('pattern', ['ArrayAssignmentTarget'], None, '`[elements]` that is assigned to (ECMA-262, 13.15.5).',
                              [('elements', 'elements', list_with_holes('TargetOrRest'))]),
    'AssignmentTargetWithDefault': ('pattern', ['AssignmentTargetWithDefault'], None, '`left = right` in a pattern that is assigned to: a default value (ECMA-262, 13.15.5).',
                                    [('left', 'left', child('AssignmentTargetMaybeDefault')), ('right', 'right', child(E))]),
    'AssignmentTargetRest': ('pattern', ['AssignmentTargetRest'], None, '`...argument` in a pattern that is assigned to (ECMA-262, 13.15.5).',
                             [('argument', 'argument', child('AssignmentTargetMaybeDefault'))]),
    # modules
    'ImportDeclaration': ('module', ['ImportDeclaration'], None, '`import specifiers from source` (ECMA-262, 16.2.2).',
                          [('specifiers', 'specifiers', list_of('ImportMember')), ('source', 'source', child('Literal'))]),
    'ImportSpecifier': ('module', ['ImportSpecifier'], None, '`imported as local` (ECMA-262, 16.2.2).',
                        [('imported', 'imported', child('ModuleName')), ('local', 'local', child('BindingIdentifier'))]),
    'ImportDefaultSpecifier': ('module', ['ImportDefaultSpecifier'], None, 'The name of a default import (ECMA-262, 16.2.2).',
                               [('local', 'local', child('BindingIdentifier'))]),
    'ImportNamespaceSpecifier': ('module', ['ImportNamespaceSpecifier'], None, '`* as local` (ECMA-262, 16.2.2).',
                                 [('local', 'local', child('BindingIdentifier'))]),
    'ExportNamedDeclaration': ('module', ['ExportNamedDeclaration'], None, '`export declaration` or `export { specifiers } from source` (ECMA-262, 16.2.3).',
                               [('declaration', 'declaration', nullable(S)), ('specifiers', 'specifiers', list_of('ExportSpecifier')), ('source', 'source', nullable('Literal'))]),
    'ExportSpecifier': ('module', ['ExportSpecifier'], None, '`local as exported` (ECMA-262, 16.2.3).',
                        [('local', 'local', child('ExportLocal')), ('exported', 'exported', child('ModuleName'))]),
    'ExportDefaultDeclaration': ('module', ['ExportDefaultDeclaration'], None, '`export default declaration` (ECMA-262, 16.2.3).',
                                 [('declaration', 'declaration', child('ExportDefault'))]),
    'ExportAllDeclaration': ('module', ['ExportAllDeclaration'], None, '`export * as exported from source` (ECMA-262, 16.2.3).',
                             [('exported', 'exported', nullable('ModuleName')), ('source', 'source', child('Literal'))]),
    'Foreign': ('foreign', ['Foreign'], None, 'A node of TypeScript, JSX, a decorator or an accessor property, of which only the string of `type` is kept.',
                [('type', 'kind', TYPE)]),
}

# what ESTree calls a kind, where the name differs; a foreign node has its own name
ESTREE = {
    'IdentifierReference': 'Identifier', 'BindingIdentifier': 'Identifier', 'IdentifierName': 'Identifier',
    'PrivateField': 'MemberExpression', 'PrivateIn': 'BinaryExpression', 'BindingProperty': 'Property',
    'ObjectAssignmentTarget': 'ObjectPattern', 'AssignmentTargetProperty': 'Property', 'ArrayAssignmentTarget': 'ArrayPattern',
    'AssignmentTargetWithDefault': 'AssignmentPattern', 'AssignmentTargetRest': 'RestElement', 'Foreign': '',
}

STATEMENTS = ['ExpressionStatement', 'BlockStatement', 'EmptyStatement', 'DebuggerStatement', 'WithStatement', 'ReturnStatement',
              'ThrowStatement', 'LabeledStatement', 'BreakStatement', 'ContinueStatement', 'IfStatement', 'SwitchStatement', 'TryStatement',
              'WhileStatement', 'DoWhileStatement', 'ForStatement', 'ForInStatement', 'ForOfStatement', 'FunctionDeclaration',
              'VariableDeclaration', 'ClassDeclaration', 'ImportDeclaration', 'ExportNamedDeclaration', 'ExportDefaultDeclaration',
              'ExportAllDeclaration', 'Foreign']
EXPRESSIONS = ['ThisExpression', 'IdentifierReference', 'Literal', 'ArrayExpression', 'ObjectExpression', 'FunctionExpression',
               'ArrowFunctionExpression', 'ClassExpression', 'TemplateLiteral', 'TaggedTemplateExpression', 'MemberExpression', 'PrivateField',
               'UnaryExpression', 'UpdateExpression', 'BinaryExpression', 'PrivateIn', 'LogicalExpression', 'AssignmentExpression',
               'ConditionalExpression', 'CallExpression', 'NewExpression', 'SequenceExpression', 'YieldExpression', 'AwaitExpression',
               'ImportExpression', 'MetaProperty', 'ChainExpression', 'Foreign']
PATTERNS = ['BindingIdentifier', 'ObjectPattern', 'ArrayPattern', 'AssignmentPattern', 'Foreign']
SIMPLE = ['IdentifierReference', 'MemberExpression', 'PrivateField']
TARGETS = SIMPLE + ['ObjectAssignmentTarget', 'ArrayAssignmentTarget']

# place: (doc, other places whose kinds stand there, kinds that stand there)
PLACES = {
    'Program': ('The root.', [], ['Program']),
    'Statement': ('A statement, a declaration, an import or an export.', [], STATEMENTS),
    'Expression': ('An expression.', [], EXPRESSIONS),
    'Pattern': ('A pattern that declares.', [], PATTERNS),
    'SimpleAssignmentTarget': ('The target of an update.', [], SIMPLE),
    'AssignmentTarget': ('The target of an assignment or a loop.', [], TARGETS),
    'AssignmentTargetMaybeDefault': ('A target inside a pattern, which may have a default value.', [T], ['AssignmentTargetWithDefault']),
    'TargetOrRest': ('An element of an array that is assigned to.', ['AssignmentTargetMaybeDefault'], ['AssignmentTargetRest']),
    'TargetMember': ('A member of an object that is assigned to.', [], ['AssignmentTargetProperty', 'AssignmentTargetRest']),
    'PatternOrRest': ('A parameter, or an element of an array pattern.', [P], ['RestElement']),
    'PatternMember': ('A member of an object pattern.', [], ['BindingProperty', 'RestElement']),
    'ExpressionOrSuper': ('An object or a callee.', [E], ['Super']),
    'ExpressionOrSpread': ('An argument, or an element of an array.', [E], ['SpreadElement']),
    'ObjectMember': ('A member of an object literal.', [], ['Property', 'SpreadElement']),
    'ChainElement': ('The outermost member or call of a chain.', [], ['MemberExpression', 'PrivateField', 'CallExpression']),
    'ArrowBody': ('The body of an arrow.', [E], ['BlockStatement']),
    'ForInit': ('The head of a `for` loop.', [E], ['VariableDeclaration']),
    'ForLeft': ('The left side of a for-in or for-of loop.', [T], ['VariableDeclaration']),
    'Block': ('The body of a function, or a block of `try`.', [], ['BlockStatement']),
    'SwitchCase': ('A case of a `switch`.', [], ['SwitchCase']),
    'CatchClause': ('The handler of a `try`.', [], ['CatchClause']),
    'VariableDeclarator': ('A declarator.', [], ['VariableDeclarator']),
    'ClassBody': ('The body of a class.', [], ['ClassBody']),
    'ClassElement': ('An element of a class.', [], ['MethodDefinition', 'PropertyDefinition', 'StaticBlock', 'Foreign']),
    'FunctionValue': ('The value of a method.', [], ['FunctionExpression']),
    'PropertyKey': ('The key of a property that is not computed.', [], ['IdentifierName', 'Literal']),
    'ClassKey': ('The key of a class element that is not computed.', ['PropertyKey'], ['PrivateIdentifier']),
    'MemberProperty': ('The property of a member that is not computed.', [], ['IdentifierName']),
    'IdentifierName': ('A label, or a part of a meta property.', [], ['IdentifierName']),
    'BindingIdentifier': ('The name of a function, a class or an import.', [], ['BindingIdentifier']),
    'PrivateIdentifier': ('A private name.', [], ['PrivateIdentifier']),
    'Literal': ('The source of an import or export.', [], ['Literal']),
    'TemplateLiteral': ('The template behind a tag.', [], ['TemplateLiteral']),
    'TemplateElement': ('A string of a template.', [], ['TemplateElement']),
    'ImportMember': ('What an import binds.', [], ['ImportSpecifier', 'ImportDefaultSpecifier', 'ImportNamespaceSpecifier']),
    'ModuleName': ('A name that a module imports or exports.', [], ['IdentifierName', 'Literal']),
    'ExportSpecifier': ('A specifier of an export.', [], ['ExportSpecifier']),
    'ExportLocal': ('What a specifier of an export names.', [], ['IdentifierReference', 'IdentifierName', 'Literal']),
    'ExportDefault': ('What is exported by default.', [E], ['FunctionDeclaration', 'ClassDeclaration']),
}
