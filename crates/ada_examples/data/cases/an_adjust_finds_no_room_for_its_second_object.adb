with Ada.Finalization; with Ada.Text_IO; with Ada.Unchecked_Deallocation; with Profile_Pools;
procedure Main is
   type Shoe is record Size : Integer := 40; end record;
   Shop : Profile_Pools.First_Fit_Pool (25);
   type Lace is access Shoe with Storage_Pool => Shop;
   type Pair is new Ada.Finalization.Controlled with record Left : Lace; Right : Lace; end record;
   overriding procedure Adjust (Object : in out Pair);
   overriding procedure Finalize (Object : in out Pair);
   type Rack is record Upper : Pair; Lower : Pair; end record;
   procedure Free is new Ada.Unchecked_Deallocation (Shoe, Lace);
   overriding procedure Adjust (Object : in out Pair) is
   begin
      Object.Left := new Shoe'(Size => Object.Left.Size);
      begin
         Object.Right := new Shoe'(Size => Object.Right.Size);
         Ada.Text_IO.Put_Line ("both");
      exception
         when Storage_Error =>
            Ada.Text_IO.Put_Line ("the left one");
            Object.Right := null;
         when others =>
            Ada.Text_IO.Put_Line ("no right one");
            Object.Right := null;
      end;
   exception
      when others =>
         Ada.Text_IO.Put_Line ("none");
         Object.Left := null;
         Object.Right := null;
   end Adjust;
   overriding procedure Finalize (Object : in out Pair) is
   begin
      Free (Object.Left);
      Free (Object.Right);
   end Finalize;
   Old : Rack;
   Recent : Rack;
begin
   Old.Upper.Left := new Shoe'(Size => 38);
   Old.Upper.Right := new Shoe'(Size => 39);
   Old.Lower.Left := new Shoe'(Size => 41);
   Old.Lower.Right := new Shoe'(Size => 42);
   Recent := Old;
   Ada.Text_IO.Put_Line (Integer'Image (Recent.Upper.Left.Size));
   Free (Old.Upper.Right);
   Recent := Old;
   Ada.Text_IO.Put_Line (Integer'Image (Recent.Lower.Left.Size));
end Main;
