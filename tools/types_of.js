// types_of.js [--base] FILE ..: the types of .d.ts files as TypeScript's parser reads them, one JSON line each: the text with
// its comments blanked, the tree in the form of the node table, and whether it is the body of an interface, which counts as
// an object type. A type that holds what is not read here is left out: null, what it holds, the same, the text; and the types
// in it stand for themselves. With --base every object type is left out. Needs the Debian package node-typescript.
const fs = require('fs');
const ts = require('typescript');
const K = ts.SyntaxKind;
const WORDS = [K.AnyKeyword, K.BigIntKeyword, K.BooleanKeyword, K.NeverKeyword, K.NullKeyword, K.NumberKeyword, K.ObjectKeyword,
  K.StringKeyword, K.SymbolKeyword, K.ThisType, K.UndefinedKeyword, K.UnknownKeyword, K.VoidKeyword];
const OPERATORS = [K.KeyOfKeyword, K.UniqueKeyword, K.ReadonlyKeyword];

// What is not read here.
class Uncovered extends Error {}
const base = process.argv[2] === '--base';

function shape(file) {
  const text = n => file.text.slice(n.getStart(file), n.end);
  const names = n => n.kind === K.QualifiedName ? names(n.left).concat([text(n.right)]) : [text(n)];
  const opt = n => n ? type(n) : null;
  const many = l => l ? l.map(type) : null;
  const sign = t => !t ? 0 : t.kind === K.PlusToken ? 2 : t.kind === K.MinusToken ? 3 : 1;
  const span = (n, tree) => { tree.span = [n.getStart(file), n.end]; return tree; };

  function parameters(n) {
    let self = null, list = [];
    n.parameters.forEach((p, i) => {
      if (p.modifiers && p.modifiers.length || p.initializer || p.name.kind !== K.Identifier) throw new Uncovered('parameter');
      if (text(p.name) === 'this' && !p.dotDotDotToken) {
        if (i > 0 || p.questionToken) throw new Uncovered('this');
        self = [opt(p.type)];
      } else list.push(['parameter', !!p.dotDotDotToken, text(p.name), !!p.questionToken, opt(p.type)]);
    });
    if (n.parameters.hasTrailingComma && n.parameters.length && n.parameters[n.parameters.length - 1].dotDotDotToken) throw new Uncovered('comma');
    return [self, list];
  }
  function parameter(p) {
    if (p.modifiers && p.modifiers.length) throw new Uncovered('variance');
    return ['type parameter', text(p.name), opt(p.constraint), opt(p.default)];
  }
  function literal(n) {
    switch (n.kind) {
      case K.StringLiteral: return [3, 0, text(n)];
      case K.NumericLiteral: return [3, 1, text(n)];
      case K.BigIntLiteral: return [3, 2, text(n)];
      case K.TrueKeyword: return [3, 3, null];
      case K.FalseKeyword: return [3, 4, null];
      case K.NullKeyword: return [2, 4];
      case K.NoSubstitutionTemplateLiteral: return [15, [text(n)], []];
      case K.PrefixUnaryExpression: return [3, n.operand.kind === K.BigIntLiteral ? 6 : 5, text(n.operand)];
    }
    throw new Uncovered('literal');
  }
  function element(n) {
    const t = [22, text(n.name), !!n.questionToken, type(n.type)];
    return n.dotDotDotToken ? [21, t] : t;
  }
  function key(n) {
    switch (n.kind) {
      case K.Identifier: return [0, text(n)];
      case K.StringLiteral: return [1, text(n)];
      case K.NumericLiteral: return [2, text(n)];
    }
    throw new Uncovered(n.kind === K.ComputedPropertyName ? 'computed name' : n.kind === K.PrivateIdentifier ? 'private name' : 'key');
  }
  // Whether a member is readonly.
  function readonly(n) {
    const words = (n.modifiers || []).map(m => m.kind);
    if (words.length > 1 || words.some(k => k !== K.ReadonlyKeyword)) throw new Uncovered('modifier');
    return words.length === 1;
  }
  const typeParameters = n => n.typeParameters ? n.typeParameters.map(parameter) : null;
  function signature(n, construct) {
    const p = parameters(n);
    return [typeParameters(n)].concat(construct ? [] : [p[0]], [p[1], opt(n.type)]);
  }
  function index(n) {
    const p = n.parameters[0];
    if (!n.type) throw new Uncovered('index signature without a type');
    for (const q of n.parameters) {
      if (q.modifiers && q.modifiers.length || q.dotDotDotToken || q.initializer || !q.type || q.name.kind !== K.Identifier) throw new Uncovered('index parameter');
    }
    return ['member', 4, readonly(n), p ? [text(p.name), type(p.type)] : null, type(n.type)];
  }
  function member(n) {
    switch (n.kind) {
      case K.PropertySignature:
        if (n.initializer) throw new Uncovered('initializer');
        return ['member', 0, readonly(n), key(n.name), !!n.questionToken, opt(n.type)];
      case K.MethodSignature:
        readonly(n);
        return ['member', 1, key(n.name), !!n.questionToken].concat(signature(n, false));
      case K.CallSignature: return ['member', 2].concat(signature(n, false));
      case K.ConstructSignature: return ['member', 3].concat(signature(n, true));
      case K.IndexSignature: return index(n);
    }
    throw new Uncovered(n.kind === K.GetAccessor || n.kind === K.SetAccessor ? 'accessor' : K[n.kind]);
  }
  function object(n) {
    if (base) throw new Uncovered('members');
    return [25, n.members.map(member)];
  }
  function type(n) {
    if (WORDS.includes(n.kind)) return [2, WORDS.indexOf(n.kind)];
    switch (n.kind) {
      case K.TypeReference: return [1, names(n.typeName), many(n.typeArguments)];
      case K.LiteralType: return literal(n.literal);
      case K.ParenthesizedType: return [4, type(n.type)];
      case K.UnionType: return [5, many(n.types)];
      case K.IntersectionType: return [6, many(n.types)];
      case K.ArrayType: return [7, type(n.elementType)];
      case K.IndexedAccessType: return [8, type(n.objectType), type(n.indexType)];
      case K.ConditionalType: return [9, type(n.checkType), type(n.extendsType), type(n.trueType), type(n.falseType)];
      case K.InferType: return [10, text(n.typeParameter.name), opt(n.typeParameter.constraint)];
      case K.TypeOperator: return [11, OPERATORS.indexOf(n.operator), type(n.type)];
      case K.FunctionType: { const p = parameters(n); return [12, n.typeParameters ? n.typeParameters.map(parameter) : null, p[0], p[1], type(n.type)]; }
      case K.ConstructorType: {
        const p = parameters(n);
        return [13, !!(n.modifiers && n.modifiers.length), n.typeParameters ? n.typeParameters.map(parameter) : null, p[1], type(n.type)];
      }
      case K.MappedType:
        if (n.members && n.members.length) throw new Uncovered('members');
        return [14, sign(n.readonlyToken), text(n.typeParameter.name), type(n.typeParameter.constraint), opt(n.nameType), sign(n.questionToken), opt(n.type)];
      case K.TemplateLiteralType: return [15, [text(n.head)].concat(n.templateSpans.map(s => text(s.literal))), n.templateSpans.map(s => type(s.type))];
      case K.TypePredicate: return [16, !!n.assertsModifier, n.parameterName.kind === K.ThisType ? null : text(n.parameterName), opt(n.type)];
      case K.TypeQuery:
        if (n.exprName.kind === K.ImportType) throw new Uncovered('query');
        return [17, names(n.exprName), many(n.typeArguments)];
      case K.ImportType:
        if (n.assertions || n.argument.kind !== K.LiteralType) throw new Uncovered('import');
        return [18, !!n.isTypeOf, text(n.argument), n.qualifier ? names(n.qualifier) : [], many(n.typeArguments)];
      case K.TupleType: return [19, n.elements.map(type)];
      case K.OptionalType: return [20, type(n.type)];
      case K.RestType: return [21, type(n.type)];
      case K.NamedTupleMember: return element(n);
      case K.TypeLiteral:
      case K.InterfaceDeclaration: return object(n);
    }
    throw new Uncovered(K[n.kind]);
  }
  return type;
}

// The text of a node with a blank or a line break for each comment.
function blanked(text) {
  const s = ts.createScanner(ts.ScriptTarget.Latest, false, ts.LanguageVariant.Standard, text);
  let out = '', done = 0;
  for (let k = s.scan(); k !== K.EndOfFileToken; k = s.scan()) {
    if (k === K.SingleLineCommentTrivia || k === K.MultiLineCommentTrivia) {
      const a = s.getTokenPos(), b = s.getTextPos();
      out += text.slice(done, a) + (text.slice(a, b).includes('\n') ? '\n' : ' ');
      done = b;
    }
  }
  return out + text.slice(done);
}

function walk(file, type, n, found) {
  const body = n.kind === K.InterfaceDeclaration && !base;
  if (body || ts.isTypeNode(n) && n.kind !== K.ExpressionWithTypeArguments) {
    const bare = n.kind === K.TypePredicate && !n.assertsModifier && n.parameterName.kind !== K.ThisType;
    if (!bare && n.kind !== K.NamedTupleMember && n.kind !== K.OptionalType && n.kind !== K.RestType) {
      const first = body ? n.members.pos - 1 : n.getStart(file), text = blanked(file.text.slice(first, n.end));
      try {
        found(text, type(n), body);
        if (!body) return;                              // the types in a body stand for themselves as well
      } catch (e) { if (!(e instanceof Uncovered)) throw e; found(null, e.message, body, text); }
    }
  }
  ts.forEachChild(n, c => walk(file, type, c, found));
}

for (const path of process.argv.slice(base ? 3 : 2)) {
  const file = ts.createSourceFile(path, fs.readFileSync(path, 'utf8'), ts.ScriptTarget.Latest, true);
  const lines = [];
  walk(file, shape(file), file, (...found) => lines.push(JSON.stringify(found)));
  if (lines.length) process.stdout.write(lines.join('\n') + '\n');
}
