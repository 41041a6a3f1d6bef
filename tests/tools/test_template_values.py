"""Checks what users give for a template: parameters, variables, files .env and samconfig.toml, and their own values."""
import os

from lambda_local.from_template import given, own_values
from lambda_local.from_template.env_file import read_env
from lambda_local.from_template.messages import Fault
from tests.library.cases import Case
from tests.library.project_kit import folder_of, made_by, sam, variables_of


class TemplateValues(Case):
    def test_parameters_are_given_as_AWSs_tools_take_them(self):
        """The forms in which AWS's tools have them."""
        template = {"Parameters": {"A": {"Type": "String", "AllowedValues": ["x", "y z"]}, "B": {"Type": "Number"},
                                   "C": {"Type": "CommaDelimitedList", "Default": "a,b"}},
                    "Resources": {"F": sam(Environment={"Variables": {
                        "A": {"Ref": "A"}, "B": {"Ref": "B"}, "C": {"Fn::Select": [1, {"Ref": "C"}]}}})}}
        toml = ('version = 0.1\n[default.global.parameters]\nstack_name = "s"\n[default.deploy.parameters]\n'
                'parameter_overrides = "A=\\"y z\\" B=7"\n[prod.deploy.parameters]\nparameter_overrides = "A=x"\n')
        listed = 'version = 0.1\n[default.deploy.parameters]\nparameter_overrides = [\n  "A=x",  # one\n  "B=8",\n]\n'
        with folder_of(template_0_json=template, s_0_toml=toml, l_0_toml=listed, o_0_json={"A": "x", "B": 2},
                       p_0_json=[{"ParameterKey": "A", "ParameterValue": "x"}, "B=3"],
                       w_0_json={"Parameters": {"A": "x"}}, bad_0_json=[1], no_0_toml="version = 0.1\n") as folder:
            path = os.path.join(folder, "template.json")
            for name, words, wanted in (
                    ("words", {"parameters": ["A=x", "B=1", "C=p,q"]}, ("x", "1", "q")),
                    ("a word of several", {"parameters": ["A='y z' B=1"]}, ("y z", "1", "b")),
                    ("the AWS CLI's", {"parameters": ["ParameterKey=A,ParameterValue=x", "B=1"]}, ("x", "1", "b")),
                    ("an object", {"parameter_files": ["o.json"]}, ("x", "2", "b")),
                    ("a list", {"parameter_files": ["p.json"]}, ("x", "3", "b")),
                    ("a word before a file", {"parameter_files": ["p.json"], "parameters": ["B=4"]}, ("x", "4", "b")),
                    ("samconfig.toml", {"parameter_files": ["s.toml"]}, ("y z", "7", "b")),
                    ("a list of samconfig.toml", {"parameter_files": ["l.toml"]}, ("x", "8", "b"))):
                words = {**words, "parameter_files": [os.path.join(folder, file)
                                                      for file in words.get("parameter_files", [])]}
                made = made_by(path, **words)[0]
                seen = tuple(variables_of(made).values()) if isinstance(made, dict) else made
                self.check(f"parameters: {name}", seen, wanted)
            for words, told in (
                    ({"parameters": ["A=q"]}, "--parameter A: it must be one of x, y z, not q"),
                    ({"parameters": ["D=q"]}, f"--parameter D: {path} has no such parameter; there are A, B, C"),
                    ({"parameters": ["A"]}, "--parameter: A must be NAME=VALUE"),
                    ({"parameter_files": [f"{folder}/none"]}, f"--parameters {folder}/none: No such file"),
                    ({"parameter_files": [f"{folder}/bad.json"]}, "it must be an object of names and values"),
                    ({"parameter_files": [f"{folder}/no.toml"]}, "it has no parameter_overrides in [default.deploy")):
                try:
                    seen = made_by(path, **words)[0]
                except Fault as fault:
                    seen = str(fault)
                self.check(f"parameters: {told}", told in str(seen), shown=seen)

    def test_variables_are_given_by_files(self):
        with folder_of(template_0_json={"Resources": {
                "G": sam(), "F": sam(FunctionName="shop", Environment={"Variables": {"A": "template",
                                                                                    "B": "template"}})}},
                all_0_env="# all\nexport A=file\nC=\"two words\" # so\nD='x # y'\n\nE=1 # one\n",
                vars_0_json={"F": {"B": "json", "N": 5}, "Parameters": {"P": True}}, flat_0_json={"Q": "x"},
                wrong_0_json={"H": {"A": "x"}}, bad_0_env="A=1\nB\n") as folder:
            path = os.path.join(folder, "template.json")
            made = made_by(path, env_files=[f"{folder}/all.env"], env_vars=f"{folder}/vars.json")[0]
            every = {"A": "file", "C": "two words", "D": "x # y", "E": "1", "P": "true"}
            self.check("files of variables", (variables_of(made, "shop"), variables_of(made, "G")),
                       ({**every, "B": "json", "N": "5"}, every))
            self.check("variables of all", variables_of(made_by(path, env_vars=f"{folder}/flat.json")[0], "G"),
                       {"Q": "x"})
            self.check("a function that is not there", made_by(path, env_vars=f"{folder}/wrong.json")[0],
                       "--env-vars: there is no function H; there are F, G, shop")
            with self.assertRaises(Fault) as caught:
                given.of_env_file(f"{folder}/bad.env")
            self.check("a line that is none", str(caught.exception),
                       f"--env-file {folder}/bad.env: line 2: B must be NAME=VALUE")

    def test_an_env_file_is_read_as_dotenv_does(self):
        """As dotenv has them."""
        for name, text, wanted in (
                ("ends of lines", "A=1\r\nB=2\rC=3", {"A": "1", "B": "2", "C": "3"}),
                ("several lines", 'A="-----BEGIN\nabc\n-----END" # a key\nB=1\n', {"A": "-----BEGIN\nabc\n-----END",
                                                                                "B": "1"}),
                ("escapes", 'A="a\\nb"\nB=\'a\\nb\'\nC=`a`\n', {"A": "a\nb", "B": "a\\nb", "C": "a"}),
                ("quotes that do not end", "A=it's\nB='x\nC=1\n", {"A": "it's", "B": "'x", "C": "1"}),
                ("a separator of Unicode", "A=a\u2028b\n", {"A": "a\u2028b"}),
                ("comments", "A=a#b # c\nB=#\nC= # d\n", {"A": "a#b", "B": "", "C": ""}),
                ("the last one of a name", "A=1\nA=2\n", {"A": "2"}), ("nothing", "\n \n#\n", {})):
            self.check(f".env: {name}", read_env(text, "it"), wanted)
        for text, wanted in (("A=1\nB C\n", "it: line 2: B C must be NAME=VALUE"),
                             ('A="1\n2"\n\n=3\n', "it: line 4: =3 must be NAME=VALUE"),
                             ("A=1\nB='\0'\n", "it: line 2: B has a NUL, which no variable has")):
            with self.assertRaises(Fault) as caught:
                read_env(text, "it")
            self.check(f".env: {wanted}", str(caught.exception), wanted)

    def test_a_samconfig_is_read_in_each_form_of_TOML(self):
        """Whatever form of TOML the parameters have."""
        for name, text, wanted in (
                ("escapes", '[default.deploy.parameters]\nparameter_overrides = "A=\\"a\\tb\\" B=\\u00e9"\n',
                 {"A": "a\tb", "B": "é"}),
                ("dotted keys", "default.deploy.parameters.parameter_overrides = ['A=1', 'B=2']\n",
                 {"A": "1", "B": "2"}),
                ("inline tables", "[default]\ndeploy = {parameters = {parameter_overrides = 'A=1'}}\n", {"A": "1"}),
                ("several lines", '[default.deploy.parameters]\nparameter_overrides = """\nA=1 \\\n   B=2"""\n',
                 {"A": "1", "B": "2"}),
                ("all commands, and one", "[default.global.parameters]\nparameter_overrides = 'A=1 B=1'\n"
                 "[default.deploy.parameters]\nparameter_overrides = 'B=2'\n", {"A": "1", "B": "2"})):
            self.check(f"samconfig.toml: {name}", given.of_samconfig(text, "it"), wanted)
        for text, told in (
                ("[default\n", "--parameters it: this is not TOML: line 1: the name of a table must end with ]"),
                ("a = 1\na = 2\n", "line 2: 'a' is there twice"),
                ("default.deploy.parameters.parameter_overrides = 5\n",
                 "parameter_overrides of deploy must be a string, or a list of strings, not 5"),
                ("a = {b = [1, {c = \"x\n", "line 1: a string has no end")):
            with self.assertRaises(Fault) as caught:
                given.of_samconfig(text, "it")
            self.check(f"samconfig.toml: {told}", told in str(caught.exception), shown=str(caught.exception))

    def test_own_values_are_merged_over_a_template(self):
        """lambda_local.json is merged over a template, by the rules of UP.json."""
        template = {"Resources": {"Pay": sam(FunctionName="shop-pay", Timeout=5, Environment={"Variables": {"A": "1"}}),
                                  "Far": sam(CodeUri="s3://a/b"), "Q": {"Type": "AWS::SQS::Queue"},
                                  "Work": sam(Events={"Jobs": {"Type": "SQS", "Properties": {
                                      "Queue": {"Fn::GetAtt": ["Q", "Arn"]}, "BatchSize": 3}}})}}
        own = {"api": {"port": 8080}, "functions": [
            {"name": "Pay", "variables": {"B": "2"}, "environments": 1},
            {"name": "Far", "command": "./go", "directory": "built"},
            {"name": "Work", "queue": {"url": "http://127.0.0.1:9324/0/q"}}]}
        with folder_of(template_0_json=template, lambda_local_0_json=own, other_0_json={"functions": [{"name": "Par"}]},
                       by_name_0_json={"functions": {"Pay": {"memory": 512}}}, list_0_json=[1]) as folder:
            path = os.path.join(folder, "template.json")
            made, whole, said = made_by(path)
            self.check("merged", (made["shop-pay"]["variables"], made["shop-pay"]["timeout"],
                                  made["shop-pay"]["environments"], made["Far"]["command"], made["Far"]["directory"],
                                  made["Work"]["queue"], whole["api"]),
                       ({"A": "1", "B": "2"}, 5, 1, "./go", f"{folder}/built",
                        {"batchSize": 3, "url": "http://127.0.0.1:9324/0/q"}, {"port": 8080}))
            wanted = 'set "queue": {"url": "http://HOST:PORT/123456789012/Q"} in lambda_local.json'
            self.check("what is to be supplied names the file", wanted in said, shown=said)
            self.check("by name", made_by(path, values=f"{folder}/by_name.json")[0]["shop-pay"]["memory"], 512)
            self.check("no such function", made_by(path, values=f"{folder}/other.json")[0],
                       f"{folder}/other.json: there is no function Par, did you mean Pay?")
            self.check("no object", made_by(path, values=f"{folder}/list.json")[0],
                       f"{folder}/list.json: it must be an object with the members of UP.json, not [1]")
            os.remove(f"{folder}/lambda_local.json")
            self.check("a queue without an address is none", "queue" in made_by(path)[0]["Work"], False)
            os.environ["AWS_ENDPOINT_URL_SQS"] = "http://127.0.0.1:5000/"
            try:
                self.check("by the address of the other service", made_by(path)[0]["Work"]["queue"],
                           {"url": "http://127.0.0.1:5000/123456789012/Q", "batchSize": 3})
            finally:
                del os.environ["AWS_ENDPOINT_URL_SQS"]
            self.check("merging", own_values.merged({"a": {"b": 1, "c": [1]}, "d": 1},
                                                    {"a": {"c": [2]}, "d": {"e": 1}}),
                       {"a": {"b": 1, "c": [2]}, "d": {"e": 1}})
